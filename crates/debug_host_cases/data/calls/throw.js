console.log(1);
throw 2;

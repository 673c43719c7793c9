console.log(1);
throw 8;

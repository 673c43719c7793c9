console.log(x);

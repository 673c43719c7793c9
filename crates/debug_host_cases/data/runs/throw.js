console.log(1);
throw "x";
console.log(2);

console.log(0);
console.log(9007199254740991);
console.log(7);
console.log(8);

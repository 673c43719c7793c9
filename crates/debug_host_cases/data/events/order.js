console.log({});
debugger;
console.log(2);

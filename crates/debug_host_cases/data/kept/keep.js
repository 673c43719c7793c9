const base = {p: 1};
debugger;
console.log(base.p);

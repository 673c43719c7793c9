let k = 0;
const add = (x) => { k = k + x; return k; };
console.log(add(1), add(2), add(4));

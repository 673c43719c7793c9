let o = {b: 1, 2: 2, a: "\uD800\u0001\"\\%", 1: null};
let l = [undefined, true];
let e = Error("bad");
let n = TypeError();
const f = (x) => x;
let m = {m(y) { return y; }, ["k"]: function g() {}};
o.self = o;
debugger;
let late = 1;

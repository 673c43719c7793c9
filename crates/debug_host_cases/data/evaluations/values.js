let n = 4;
const names = ["a", "b"];
const box = {inner: {deep: true}, list: names};
const wrong = TypeError("bad");
function twice(x) { let y = x + x; return y; }
const arrow = (x) => x;
let late;

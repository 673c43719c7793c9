let a;
function f() {}
const b = 2;

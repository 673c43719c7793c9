let hits = 0;
function visit(n) {
  let twice = n * 2;
  if (n > 0) visit(n - 1);
  return twice;
}
visit(3);
const o = {k: 2, go(x) { return x + this.k; }};
const p = {k: 3, go: o.go};
o.go(5);
p.go(5);
console.log(hits);

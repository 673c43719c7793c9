// Trees of expressions: printing, simplifying, the derivative, and values.
const add = (a, b) => ({ op: "+", a, b });
const mul = (a, b) => ({ op: "*", a, b });
const isTree = e => typeof e === "object";

function simple(e) {
  if (!isTree(e)) return e;
  const a = simple(e.a), b = simple(e.b);
  if (typeof a === "number" && typeof b === "number") return e.op === "+" ? a + b : a * b;
  if (e.op === "+") return a === 0 ? b : b === 0 ? a : add(a, b);
  if (a === 0 || b === 0) return 0;
  if (a === 1) return b;
  if (b === 1) return a;
  return typeof b === "number" ? mul(b, a) : mul(a, b);
}

function derive(e, x) {
  if (typeof e === "number") return 0;
  if (typeof e === "string") return e === x ? 1 : 0;
  if (e.op === "+") return add(derive(e.a, x), derive(e.b, x));
  return add(mul(derive(e.a, x), e.b), mul(e.a, derive(e.b, x)));
}

function value(e, names) {
  if (typeof e === "number") return e;
  if (typeof e === "string") {
    if (names[e] === undefined) throw ReferenceError("no value for " + e);
    return names[e];
  }
  const a = value(e.a, names), b = value(e.b, names);
  return e.op === "+" ? a + b : a * b;
}

const show = e => isTree(e) ? "(" + show(e.a) + e.op + show(e.b) + ")" : String(e);

const cube = mul("x", mul("x", "x"));
const e = add(cube, add(mul(3, "x"), add("y", mul(2, 5))));
console.log(show(e), "=", show(simple(e)));
const d = simple(derive(e, "x"));
console.log("d/dx:", show(d));
console.log("d/dy:", show(simple(derive(e, "y"))));
for (const x of [-2, 0, 1, 10]) console.log("x=" + x, value(e, { x, y: 1 }), value(d, { x }));
try { value(e, { x: 1 }); } catch (error) { console.log(error.name + ": " + error.message); }

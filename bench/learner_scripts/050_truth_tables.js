// Truth tables of formulas with up to three names.
const formulas = [
  ["a && b", (a, b) => a && b],
  ["a || b", (a, b) => a || b],
  ["!a", a => !a],
  ["a !== b", (a, b) => a !== b],
  ["!(a && b) === (!a || !b)", (a, b) => !(a && b) === (!a || !b)],
  ["a ? b : c", (a, b, c) => a ? b : c],
  ["a && b || c", (a, b, c) => a && b || c],
  ["a && !a", a => a && !a],
];

function table(name, f) {
  const n = f.length;
  let row = "", trues = 0;
  for (let bits = 0; bits < 1 << n; bits++) {
    const arg = i => (bits >> n - 1 - i & 1) === 1;
    const r = f(arg(0), arg(1), arg(2));
    if (r) trues++;
    row += r ? "1" : "0";
  }
  let kind = "";
  if (trues === 1 << n) kind = "always true";
  if (trues === 0) kind = "never true";
  console.log(row + "        ".slice(row.length), name, kind);
}

for (const pair of formulas) table(pair[0], pair[1]);
console.log(0 || "zero is false", "" || "so is nothing", null || undefined, 1 && 2 && 3, "a" && "");
console.log(!!0, !!"0", !!"", !!null, !!-1);

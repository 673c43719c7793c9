// A recursion without an end is caught, and afterwards all goes on; the last one isn't caught.
let depth = 0;
function down() {
  depth++;
  return down() + 1;
}

try {
  down();
  console.log("no way to get here");
} catch (e) {
  console.log(e.name + ": " + e.message);
  console.log("some hundred calls at least:", depth > 500);
}

let cleaned = 0;
function guarded(n) {
  try {
    return n === 0 ? undefined.x : guarded(n - 1);
  } finally {
    cleaned++;
  }
}
try {
  guarded(50);
} catch (e) {
  console.log(e.name, "after", cleaned, "times finally");
}

const sumTo = n => n === 0 ? 0 : n + sumTo(n - 1);
console.log("a deep one that ends: " + sumTo(600));

const even = n => n === 0 ? true : odd(n - 1);
const odd = n => n === 0 ? false : even(n - 1);
try {
  even(-1);
} catch (e) {
  console.log("even(-1): " + e.message);
}

const broken = tree => 1 + broken(tree.left) + broken(tree.right);
const leaf = { left: null, right: null };
leaf.left = leaf;
console.log("now a tree that holds itself");
console.log(broken(leaf));

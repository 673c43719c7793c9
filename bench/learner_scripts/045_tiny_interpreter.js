// An interpreter for a tiny language: its programs are trees of arrays.
const binary = {
  "+": (a, b) => a + b, "-": (a, b) => a - b, "*": (a, b) => a * b,
  "<": (a, b) => a < b, "=": (a, b) => a === b, "%": (a, b) => a % b,
};

function lookup(scope, name) {
  for (let s = scope; s !== null; s = s.outer) {
    if (s.names[name] !== undefined) return s;
  }
  throw ReferenceError("unknown name " + name);
}

function evaluate(tree, scope) {
  if (typeof tree === "number") return tree;
  if (typeof tree === "string") return lookup(scope, tree).names[tree];
  const head = tree[0];
  if (head === "text") return tree[1];
  if (head === "let") return scope.names[tree[1]] = evaluate(tree[2], scope);
  if (head === "set") return lookup(scope, tree[1]).names[tree[1]] = evaluate(tree[2], scope);
  if (head === "if") return evaluate(evaluate(tree[1], scope) ? tree[2] : tree[3], scope);
  if (head === "fun") return { names: tree[1], body: tree[2], scope };
  if (head === "print") { console.log(": " + evaluate(tree[1], scope)); return 0; }
  if (head === "while") {
    while (evaluate(tree[1], scope)) evaluate(tree[2], scope);
    return 0;
  }
  if (head === "do") {
    let last = 0;
    for (const part of tree.slice(1)) last = evaluate(part, scope);
    return last;
  }
  const args = [];
  for (const part of tree.slice(1)) args.push(evaluate(part, scope));
  if (binary[head]) return binary[head](args[0], args[1]);
  const f = evaluate(head, scope), inner = { names: {}, outer: f.scope };
  for (let i = 0; i < args.length; i++) inner.names[f.names[i]] = args[i];
  return evaluate(f.body, inner);
}

const program = ["do",
  ["let", "fac", ["fun", ["n"], ["if", ["<", "n", 2], 1, ["*", "n", ["fac", ["-", "n", 1]]]]]],
  ["print", ["fac", 10]],
  ["let", "adder", ["fun", ["a"], ["fun", ["b"], ["+", "a", "b"]]]],
  ["let", "add7", ["adder", 7]],
  ["print", ["add7", 35]],
  ["let", "i", 0],
  ["while", ["<", "i", 5], ["do", ["set", "i", ["+", "i", 2]], ["print", ["+", ["text", "i is "], "i"]]]],
  ["print", ["=", "i", 6]],
  ["print", "nothing"]];
try { evaluate(program, { names: {}, outer: null }); } catch (e) { console.log(e.name, e.message); }

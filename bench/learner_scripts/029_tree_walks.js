// The four ways to walk a tree.
function node(value, left, right) {
  return { value, left: left || null, right: right || null };
}

const tree = node("F",
  node("B", node("A"), node("D", node("C"), node("E"))),
  node("G", null, node("I", node("H"))));

function walk(t, before, between, behind) {
  if (!t) return;
  if (before) before(t.value);
  walk(t.left, before, between, behind);
  if (between) between(t.value);
  walk(t.right, before, between, behind);
  if (behind) behind(t.value);
}

function collected(run) {
  const seen = [];
  run(v => { seen.push(v); });
  return seen.join("");
}

console.log("pre:  ", collected(see => walk(tree, see)));
console.log("in:   ", collected(see => walk(tree, null, see)));
console.log("post: ", collected(see => walk(tree, null, null, see)));

let level = [tree];
for (let depth = 0; level.length > 0; depth++) {
  const next = [];
  let names = "";
  for (const t of level) {
    names += t.value;
    if (t.left) next.push(t.left);
    if (t.right) next.push(t.right);
  }
  console.log("level " + depth + ": " + names);
  level = next;
}

// What to put on first: a topological order, and an error where there is none.
function order(rules) {
  const needs = {}, before = {};
  for (const rule of rules) {
    const a = rule[0], b = rule[1];
    needs[a] = needs[a] || 0;
    needs[b] = (needs[b] || 0) + 1;
    if (before[a] === undefined) before[a] = [];
    before[a].push(b);
  }
  const ready = [];
  for (const x of Object.keys(needs)) if (needs[x] === 0) ready.push(x);
  for (let i = 0; i < ready.length; i++) {
    for (const y of before[ready[i]] || []) if (--needs[y] === 0) ready.push(y);
  }
  const all = Object.keys(needs).length;
  if (ready.length < all) {
    const e = Error("a circle");
    e.left = all - ready.length;
    throw e;
  }
  return ready;
}

const clothes = [["socks", "shoes"], ["trousers", "shoes"], ["shirt", "tie"], ["tie", "jacket"],
  ["trousers", "belt"], ["belt", "jacket"], ["shirt", "belt"]];
console.log(order(clothes).join(", "));
console.log(order([]).length);
clothes.push(["jacket", "shirt"]);
try {
  console.log(order(clothes).join(", "));
} catch (e) {
  console.log("no order: " + e.message + " among " + e.left + " things");
}

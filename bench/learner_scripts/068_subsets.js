// All subsets by bits, those with a sum, and all choices of k elements.
const names = ["Ann", "Bob", "Cyd"];
for (let bits = 0; bits < 1 << names.length; bits++) {
  const some = [];
  for (let i = 0; i < names.length; i++) if (bits & 1 << i) some.push(names[i]);
  console.log(bits + " {" + some.join(", ") + "}");
}

function choose(list, k) {
  if (k === 0) return [[]];
  if (list.length < k) return [];
  const all = [];
  for (const rest of choose(list.slice(1), k - 1)) {
    const one = [list[0]];
    for (const x of rest) one.push(x);
    all.push(one);
  }
  for (const without of choose(list.slice(1), k)) all.push(without);
  return all;
}

const three = choose(["a", "b", "c", "d", "e"], 3);
const texts = [];
for (const t of three) texts.push(t.join(""));
console.log(three.length + ": " + texts.join(" "));

function sums(list, wanted, picked) {
  if (wanted === 0) { console.log("  " + picked.join(" + ")); return 1; }
  let found = 0;
  for (let i = 0; i < list.length; i++) {
    if (list[i] > wanted) continue;
    picked.push(list[i]);
    found += sums(list.slice(i + 1), wanted - list[i], picked);
    picked.pop();
  }
  return found;
}
console.log("15 can be had in", sums([1, 2, 4, 5, 8, 9, 10], 15, []), "ways");

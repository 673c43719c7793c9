// All orders of letters by recursion, and the next order of numbers by a rule.
function permutations(text) {
  if (text.length <= 1) return [text];
  const all = [];
  for (let i = 0; i < text.length; i++) {
    if (text.indexOf(text[i]) !== i) continue;
    for (const rest of permutations(text.slice(0, i) + text.slice(i + 1))) all.push(text[i] + rest);
  }
  return all;
}

console.log(permutations("abc").join(" "));
console.log(permutations("aab").join(" "), permutations("").length, permutations("level").length);

function next(list) {
  let i = list.length - 2;
  while (i >= 0 && list[i] >= list[i + 1]) i--;
  if (i < 0) return false;
  let j = list.length - 1;
  while (list[j] <= list[i]) j--;
  const swap = (a, b) => { const t = list[a]; list[a] = list[b]; list[b] = t; };
  swap(i, j);
  for (let a = i + 1, b = list.length - 1; a < b; a++, b--) swap(a, b);
  return true;
}

const order = [1, 2, 3, 4];
let count = 0;
do {
  count++;
  if (count % 6 === 1) console.log(count + ": " + order.join(""));
} while (next(order));
console.log("together " + count + ", the last is " + order.join(""));

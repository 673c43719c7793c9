// Linear and binary search, with the number of looks each takes.
const list = [];
for (let i = 0; i < 64; i++) list.push(i * 3 + 1);

function linear(list, wanted) {
  let looks = 0;
  for (let i = 0; i < list.length; i++) {
    looks++;
    if (list[i] === wanted) return { at: i, looks };
  }
  return { at: -1, looks: looks };
}

function binary(list, wanted) {
  let low = 0, high = list.length - 1, looks = 0;
  while (low <= high) {
    const middle = low + high >> 1;
    looks++;
    if (list[middle] === wanted) return { at: middle, looks };
    if (list[middle] < wanted) low = middle + 1;
    else high = middle - 1;
  }
  return { at: -1, looks };
}

for (const wanted of [1, 94, 100, 190, 0, 191]) {
  const a = linear(list, wanted);
  const b = binary(list, wanted);
  console.log(wanted + ": at " + a.at + ", linear " + a.looks + ", binary " + b.looks + (a.at === b.at ? "" : " (they differ!)"));
}
console.log("indexOf agrees:", list.indexOf(94) === binary(list, 94).at);

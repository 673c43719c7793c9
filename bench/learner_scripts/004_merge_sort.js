// Merge sort makes new arrays and is stable.
function merge(left, right, before) {
  const result = [];
  let i = 0, j = 0;
  while (i < left.length && j < right.length) {
    if (before(right[j], left[i])) result.push(right[j++]);
    else result.push(left[i++]);
  }
  while (i < left.length) result.push(left[i++]);
  while (j < right.length) result.push(right[j++]);
  return result;
}

function mergeSort(list, before) {
  if (list.length < 2) return list.slice();
  const middle = list.length >> 1;
  return merge(mergeSort(list.slice(0, middle), before), mergeSort(list.slice(middle), before), before);
}

const pupils = [
  { name: "Ida", mark: 2 }, { name: "Tom", mark: 1 }, { name: "Eva", mark: 3 },
  { name: "Max", mark: 1 }, { name: "Ben", mark: 2 }, { name: "Zoe", mark: 1 },
];

function show(list) {
  let text = "";
  for (const p of list) text += (text === "" ? "" : ", ") + p.name + ":" + p.mark;
  return text;
}

console.log(show(mergeSort(pupils, (a, b) => a.mark < b.mark)));
console.log(show(mergeSort(pupils, (a, b) => a.name < b.name)));
console.log(show(mergeSort(pupils, (a, b) => a.mark > b.mark || a.mark === b.mark && a.name > b.name)));
console.log(mergeSort([3, 1, 2], (a, b) => a < b).join(), mergeSort([], (a, b) => a < b).length);

// Quick sort in place, with the last element as the pivot, and its depth of recursion.
let deepest = 0;

const swap = (list, i, j) => {
  const x = list[i];
  list[i] = list[j];
  list[j] = x;
};

function partition(list, low, high) {
  const pivot = list[high];
  let edge = low;
  for (let i = low; i < high; i++) {
    if (list[i] <= pivot) {
      swap(list, i, edge);
      edge++;
    }
  }
  swap(list, edge, high);
  return edge;
}

function quickSort(list, low, high, depth) {
  if (depth > deepest) deepest = depth;
  if (low >= high) return;
  const p = partition(list, low, high);
  quickSort(list, low, p - 1, depth + 1);
  quickSort(list, p + 1, high, depth + 1);
}

let seed = 17;
const data = [];
while (data.length < 60) {
  seed = (seed * 1103 + 12345) % 10007;
  data.push(seed % 200 - 100);
}
quickSort(data, 0, data.length - 1, 1);
console.log(data.join(" "));
let ordered = true;
for (let i = 1; i < data.length; i++) ordered = ordered && data[i - 1] <= data[i];
console.log("ordered:", ordered, "depth:", deepest);

// Heap sort in place: the array is a tree, the children of i are 2i+1 and 2i+2.
function sift(a, root, end) {
  for (;;) {
    let child = 2 * root + 1;
    if (child >= end) return;
    if (child + 1 < end && a[child] < a[child + 1]) child++;
    if (a[root] >= a[child]) return;
    const t = a[root];
    a[root] = a[child];
    a[child] = t;
    root = child;
  }
}

function heapSort(a) {
  for (let i = (a.length >> 1) - 1; i >= 0; i--) sift(a, i, a.length);
  console.log("heap:   " + a.join(" "));
  for (let end = a.length - 1; end > 0; end--) {
    const t = a[0];
    a[0] = a[end];
    a[end] = t;
    sift(a, 0, end);
  }
}

const years = [1969, 1815, 2001, 1492, 1789, 1066, 1914, 476];
heapSort(years);
console.log("sorted: " + years.join(" "));
const text = ["q", "w", "e", "r", "t", "y"];
heapSort(text);
console.log(text.join(""));

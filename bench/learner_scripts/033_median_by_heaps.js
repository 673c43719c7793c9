// The running median of a stream of numbers, by two binary heaps.
function makeHeap(before) {
  const a = [];
  const swap = (i, j) => { const t = a[i]; a[i] = a[j]; a[j] = t; };
  return {
    size: () => a.length,
    top: () => a[0],
    add(x) {
      let i = a.push(x) - 1;
      while (i > 0 && before(a[i], a[i - 1 >> 1])) {
        swap(i, i - 1 >> 1);
        i = i - 1 >> 1;
      }
    },
    take() {
      const first = a[0], last = a.pop();
      if (a.length === 0) return first;
      a[0] = last;
      for (let i = 0; ;) {
        let c = 2 * i + 1;
        if (c >= a.length) break;
        if (c + 1 < a.length && before(a[c + 1], a[c])) c++;
        if (!before(a[c], a[i])) break;
        swap(i, c);
        i = c;
      }
      return first;
    },
  };
}

const low = makeHeap((x, y) => x > y), high = makeHeap((x, y) => x < y);
const stream = [12, 4, 5, 3, 8, 7, 100, -20, 6, 5];
for (const x of stream) {
  if (low.size() === 0 || x <= low.top()) low.add(x); else high.add(x);
  if (low.size() > high.size() + 1) high.add(low.take());
  if (high.size() > low.size()) low.add(high.take());
  const twice = low.size() > high.size() ? 2 * low.top() : low.top() + high.top();
  const half = twice % 2 === 0 ? "" : ".5";
  console.log("after " + x + " the median is " + (twice - twice % 2) / 2 + half);
}
const rest = [];
while (high.size() > 0) rest.push(high.take());
console.log("the upper half: " + rest.join(" "));

// Shortest ways in a graph with lengths (Dijkstra), with a plain list in place of a heap.
const roads = [
  ["A", "B", 7], ["A", "C", 9], ["A", "F", 14], ["B", "C", 10], ["B", "D", 15],
  ["C", "D", 11], ["C", "F", 2], ["D", "E", 6], ["E", "F", 9], ["X", "Y", 1],
];
const near = {};
function connect(a, b, length) {
  if (!near[a]) near[a] = [];
  near[a].push({ to: b, length });
}
for (const r of roads) {
  connect(r[0], r[1], r[2]);
  connect(r[1], r[0], r[2]);
}

function ways(start) {
  const far = { [start]: 0 }, last = {}, done = {};
  for (;;) {
    let here = null;
    for (const town of Object.keys(far)) {
      if (!done[town] && (here === null || far[town] < far[here])) here = town;
    }
    if (here === null) break;
    done[here] = true;
    for (const road of near[here]) {
      const length = far[here] + road.length;
      if (far[road.to] === undefined || length < far[road.to]) {
        far[road.to] = length;
        last[road.to] = here;
      }
    }
  }
  return { far, last };
}

const w = ways("A");
for (const town of Object.keys(near)) {
  if (w.far[town] === undefined) { console.log(town + ": can't be reached"); continue; }
  let path = town;
  for (let t = w.last[town]; t; t = w.last[t]) path = t + path;
  console.log(town + ": " + w.far[town] + " by " + path);
}

// Depth-first search: times of entering and leaving, and whether there is a circle.
const edges = [["a", "b"], ["a", "c"], ["b", "d"], ["c", "d"], ["d", "e"], ["f", "g"], ["g", "f"], ["h", "h"]];
const out = {};
for (const e of edges) {
  for (const v of e) out[v] = out[v] || [];
  out[e[0]].push(e[1]);
}

let clock = 0;
const entered = {}, left = {};
const circles = [];

function visit(v, path) {
  entered[v] = ++clock;
  path.push(v);
  for (const w of out[v]) {
    if (!entered[w]) visit(w, path);
    else if (!left[w]) circles.push(path.slice(path.indexOf(w)).join(">") + ">" + w);
  }
  path.pop();
  left[v] = ++clock;
}

for (const v of Object.keys(out)) {
  if (!entered[v]) {
    console.log("start at " + v);
    visit(v, []);
  }
}
for (const v of Object.keys(out)) console.log(v, entered[v] + "-" + left[v], "to [" + out[v].join() + "]");
console.log(circles.length === 0 ? "no circles" : "circles: " + circles.join(", "));

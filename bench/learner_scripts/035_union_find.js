// Union-find: islands that are joined by bridges.
const parent = [];
const size = [];
let islands = 0;

function add() {
  parent.push(parent.length);
  size.push(1);
  islands++;
}

function find(x) {
  while (parent[x] !== x) {
    parent[x] = parent[parent[x]];
    x = parent[x];
  }
  return x;
}

function join(a, b) {
  let x = find(a), y = find(b);
  if (x === y) return false;
  if (size[x] < size[y]) { const t = x; x = y; y = t; }
  parent[y] = x;
  size[x] += size[y];
  islands--;
  return true;
}

for (let i = 0; i < 10; i++) add();
const bridges = [[0, 1], [2, 3], [1, 3], [0, 2], [8, 9], [4, 5], [5, 6], [6, 4], [7, 7], [9, 3]];
for (const bridge of bridges) {
  const useful = join(bridge[0], bridge[1]);
  console.log(bridge.join("-") + (useful ? " joins" : " joins nothing") + ", " + islands + " left");
}
console.log("0 and 8 together:", find(0) === find(8));
console.log("0 and 4 together:", find(0) === find(4));
console.log("sizes:", size[find(0)], size[find(4)], size[find(7)]);

// Finds the shortest way through the maze of the input and draws it.
const maze = [];
let start = null, end = null;
for (let line = readline(), y = 0; line !== null; line = readline(), y++) {
  const row = [];
  for (let x = 0; x < line.length; x++) {
    row.push(line[x]);
    if (line[x] === "S") start = { x, y, from: null };
    if (line[x] === "E") end = { x, y };
  }
  maze.push(row);
}
if (start === null || end === null) throw Error("the maze needs S and E");

const moves = [{ dx: 0, dy: -1 }, { dx: 1, dy: 0 }, { dx: 0, dy: 1 }, { dx: -1, dy: 0 }];
const seen = { [start.x + "," + start.y]: true };
const queue = [start];
let found = null, looked = 0;
for (let i = 0; i < queue.length && !found; i++) {
  const here = queue[i];
  looked++;
  if (here.x === end.x && here.y === end.y) found = here;
  for (const m of moves) {
    const x = here.x + m.dx, y = here.y + m.dy, key = x + "," + y;
    if (seen[key] || maze[y][x] === "#") continue;
    seen[key] = true;
    queue.push({ x, y, from: here });
  }
}

if (!found) console.log("no way out");
else {
  let steps = 0;
  for (let p = found; p !== null; p = p.from) {
    if (maze[p.y][p.x] === ".") maze[p.y][p.x] = "o";
    steps++;
  }
  console.log(steps - 1 + " steps, looked at " + looked + " places");
}
for (const row of maze) console.log(row.join(""));

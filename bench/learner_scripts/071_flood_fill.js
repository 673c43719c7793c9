// Fills areas of a picture with a colour, counts islands, and measures them.
const picture = [
  "..##....#.",
  "..#....##.",
  "...##.....",
  "#......###",
  "##.#...#.#",
  ".......###",
];
const grid = [];
for (const row of picture) {
  const cells = [];
  for (let x = 0; x < row.length; x++) cells.push(row[x]);
  grid.push(cells);
}

function fill(x, y, from, to) {
  if (y < 0 || y >= grid.length || x < 0 || x >= grid[y].length || grid[y][x] !== from) return 0;
  grid[y][x] = to;
  return 1 + fill(x + 1, y, from, to) + fill(x - 1, y, from, to) + fill(x, y + 1, from, to) + fill(x, y - 1, from, to);
}

const names = "ABCDEFGHIJ";
let islands = 0;
const areas = [];
for (let y = 0; y < grid.length; y++) {
  for (let x = 0; x < grid[y].length; x++) {
    const area = fill(x, y, "#", names[islands]);
    if (area > 0) {
      areas.push(names[islands] + "=" + area);
      islands++;
    }
  }
}
console.log(islands + " islands: " + areas.join(" "));
console.log("water from the corner: " + fill(0, 0, ".", "~"));
for (const row of grid) console.log(row.join(""));

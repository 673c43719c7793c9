// A matrix filled in a spiral, read in a spiral, turned, and walked along its diagonals.
function filled(rows, columns) {
  const m = [];
  for (let i = 0; i < rows; i++) { m.push([]); for (let j = 0; j < columns; j++) m[i].push(null); }
  const dy = [0, 1, 0, -1], dx = [1, 0, -1, 0];
  let y = 0, x = 0, way = 0;
  for (let n = 1; n <= rows * columns; n++) {
    m[y][x] = n;
    let a = y + dy[way], b = x + dx[way];
    if (a < 0 || a >= rows || b < 0 || b >= columns || m[a][b] !== null) {
      way = (way + 1) % 4;
      a = y + dy[way];
      b = x + dx[way];
    }
    y = a;
    x = b;
  }
  return m;
}

function print(m) {
  for (const row of m) {
    let line = "";
    for (const n of row) line += (n < 10 ? "  " : " ") + n;
    console.log(line);
  }
}

function turned(m) {
  const t = [];
  for (let j = 0; j < m[0].length; j++) {
    const row = [];
    for (let i = m.length - 1; i >= 0; i--) row.push(m[i][j]);
    t.push(row);
  }
  return t;
}

const m = filled(4, 5);
print(m);
console.log("turned:");
print(turned(m));
let zigzag = "";
for (let d = 0; d < m.length + m[0].length - 1; d++) {
  for (let i = 0; i <= d; i++) {
    const y = d % 2 === 0 ? d - i : i, x = d - y;
    if (m[y] && m[y][x]) zigzag += m[y][x] + " ";
  }
}
console.log("zigzag: " + zigzag);
print(filled(1, 3));
print(filled(3, 1));

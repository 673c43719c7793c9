// The game of life over the lines of the input: how many turns, then the board, whose edges meet.
let turns = 0;
const first = readline();
for (let i = 0; i < first.length; i++) turns = turns * 10 + first.charCodeAt(i) - 48;

let board = [];
for (;;) {
  const line = readline();
  if (line === null) break;
  const row = [];
  for (let i = 0; i < line.length; i++) row.push(line[i] === "#");
  board.push(row);
}
const rows = board.length, columns = board[0].length;

function neighbours(y, x) {
  let n = 0;
  for (let dy = -1; dy <= 1; dy++) {
    for (let dx = -1; dx <= 1; dx++) {
      if (dy === 0 && dx === 0) continue;
      if (board[(y + dy + rows) % rows][(x + dx + columns) % columns]) n++;
    }
  }
  return n;
}

function print(turn) {
  let alive = 0;
  console.log("turn " + turn);
  for (const row of board) {
    let text = "";
    for (const cell of row) {
      text += cell ? "#" : ".";
      alive += cell ? 1 : 0;
    }
    console.log(text);
  }
  console.log(alive + " alive");
}

print(0);
for (let turn = 1; turn <= turns; turn++) {
  const next = [];
  for (let y = 0; y < rows; y++) {
    next.push([]);
    for (let x = 0; x < columns; x++) {
      const n = neighbours(y, x);
      next[y].push(n === 3 || n === 2 && board[y][x]);
    }
  }
  board = next;
  print(turn);
}

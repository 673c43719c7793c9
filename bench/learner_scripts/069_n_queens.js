// Places queens on a board so that none attacks another, and draws the first way.
function solve(n) {
  const columns = [];
  let ways = 0, first = null;

  function safe(row, column) {
    for (let r = 0; r < row; r++) {
      const c = columns[r];
      if (c === column || c - column === r - row || c - column === row - r) return false;
    }
    return true;
  }

  function place(row) {
    if (row === n) {
      ways++;
      if (first === null) first = columns.slice();
      return;
    }
    for (let c = 0; c < n; c++) {
      if (safe(row, c)) {
        columns.push(c);
        place(row + 1);
        columns.pop();
      }
    }
  }

  place(0);
  return { ways, first };
}

for (let n = 1; n <= 6; n++) console.log(n + " queens: " + solve(n).ways + " ways");
const board = solve(6).first;
for (const column of board) {
  let row = "";
  for (let c = 0; c < board.length; c++) row += c === column ? "Q " : ". ";
  console.log(row);
}
console.log("none for 3:", solve(3).first);

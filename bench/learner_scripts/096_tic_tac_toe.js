// Tic-tac-toe for two over the lines of the input; a field is named by its number.
const fields = ["1", "2", "3", "4", "5", "6", "7", "8", "9"];
const lines = [[0, 1, 2], [3, 4, 5], [6, 7, 8], [0, 3, 6], [1, 4, 7], [2, 5, 8], [0, 4, 8], [2, 4, 6]];

function draw() {
  for (let y = 0; y < 9; y += 3) {
    console.log(" " + fields.slice(y, y + 3).join(" | "));
    if (y < 6) console.log("---+---+---");
  }
}

function winner() {
  for (const l of lines) {
    if (fields[l[0]] === fields[l[1]] && fields[l[1]] === fields[l[2]]) return fields[l[0]];
  }
  return null;
}

let player = "X", moves = 0;
while (moves < 9 && winner() === null) {
  const move = readline();
  if (move === null) {
    console.log("nobody plays any more");
    break;
  }
  const at = move.length === 1 ? "123456789".indexOf(move) : -1;
  if (at < 0) {
    console.log(player + ": what is '" + move + "'?");
    continue;
  }
  if (fields[at] === "X" || fields[at] === "O") {
    console.log(player + ": " + move + " is taken by " + fields[at]);
    continue;
  }
  fields[at] = player;
  moves++;
  console.log("\n" + player + " takes " + move);
  draw();
  player = player === "X" ? "O" : "X";
}
const won = winner();
console.log(won ? won + " wins after " + moves + " moves" : "a draw after " + moves + " moves");

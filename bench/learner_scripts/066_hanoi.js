// The towers of Hanoi, with the pegs drawn for three discs.
const pegs = { A: [], B: [], C: [] };
let moves = 0;

function draw() {
  let text = "";
  for (const name of Object.keys(pegs)) text += name + "[" + pegs[name].join("") + "] ";
  return text;
}

function move(n, from, to, over, quiet) {
  if (n === 0) return;
  move(n - 1, from, over, to, quiet);
  const disc = pegs[from].pop();
  const under = pegs[to][pegs[to].length - 1];
  if (under !== undefined && under < disc) throw Error("a large disc on a small one");
  pegs[to].push(disc);
  moves++;
  if (!quiet) console.log(moves + ": " + from + " to " + to + "  " + draw());
  move(n - 1, over, to, from, quiet);
}

for (let d = 3; d > 0; d--) pegs.A.push(d);
console.log("start " + draw());
move(3, "A", "C", "B", false);

pegs.C = [];
moves = 0;
for (let d = 9; d > 0; d--) pegs.A.push(d);
move(9, "A", "B", "C", true);
console.log("nine discs: " + moves + " moves, " + draw(), moves === (1 << 9) - 1);

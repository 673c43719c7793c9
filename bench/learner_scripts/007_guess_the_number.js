// Guess the number over the lines of the input; two rounds, then statistics.
const secrets = [42, 7, 99];
const rounds = [];

function number(text) {
  if (text === "") return null;
  let n = 0;
  for (let i = 0; i < text.length; i++) {
    if (!(text[i] >= "0" && text[i] <= "9")) return null;
    n = n * 10 + (text.charCodeAt(i) - "0".charCodeAt(0));
  }
  return n;
}

function play(secret) {
  let low = 1, high = 100;
  for (let tries = 1; ; tries++) {
    const text = readline();
    if (text === null) return -1;
    const guess = number(text);
    if (guess === null) {
      console.log("  '" + text + "' is no number, but counts");
    } else if (guess === secret) {
      console.log("  " + guess + "! Right after " + tries + " tries.");
      return tries;
    } else {
      const silly = guess < low || guess > high ? " (you could have known)" : "";
      if (guess < secret) low = guess + 1; else high = guess - 1;
      console.log("  " + guess + " is too " + (guess < secret ? "small" : "large") + silly);
    }
  }
}

for (const secret of secrets) {
  console.log("I think of a number from 1 to 100.");
  const tries = play(secret);
  if (tries < 0) {
    console.log("  You give up? It was " + secret + ".");
    break;
  }
  rounds.push(tries);
}
let sum = 0;
for (const r of rounds) sum += r;
console.log(rounds.length + " rounds won with " + sum + " tries");

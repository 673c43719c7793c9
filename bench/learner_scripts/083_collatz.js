// Collatz's rule: half of an even number, three times an odd one and one more.
const next = n => n % 2 === 0 ? n / 2 : 3 * n + 1;

function chain(n) {
  const seen = [n];
  while (n !== 1) seen.push(n = next(n));
  return seen;
}

console.log(chain(6).join(" "));
console.log(chain(1).join(" "));
console.log("27 takes " + (chain(27).length - 1) + " steps");

const steps = { 1: 0 };
function count(n) {
  if (steps[n] === undefined) steps[n] = 1 + count(next(n));
  return steps[n];
}
let longest = 1;
for (let n = 2; n < 1000; n++) if (count(n) > count(longest)) longest = n;
console.log("below 1000 the longest is from " + longest + ": " + count(longest));

let peak = 0, where = 0;
for (let n = 1; n < 200; n++) {
  let m = n;
  while (m > 1) {
    if (m > peak) { peak = m; where = n; }
    m = m & 1 ? 3 * m + 1 : m >> 1;
  }
}
console.log("the highest peak below 200 is " + peak + ", first from " + where);

// Functions that call themselves in strange ways.
let calls = 0;
function ackermann(m, n) {
  calls++;
  if (m === 0) return n + 1;
  if (n === 0) return ackermann(m - 1, 1);
  return ackermann(m - 1, ackermann(m, n - 1));
}

for (let m = 0; m <= 2; m++) {
  let row = "";
  for (let n = 0; n <= 5; n++) row += ackermann(m, n) + " ";
  console.log("m=" + m + ": " + row);
}
calls = 0;
console.log("ackermann(3, 3) =", ackermann(3, 3), "by", calls, "calls");

const mccarthy = n => n > 100 ? n - 10 : mccarthy(mccarthy(n + 11));
console.log(mccarthy(1), mccarthy(99), mccarthy(100), mccarthy(101), mccarthy(150));

const female = n => n === 0 ? 1 : n - male(female(n - 1));
const male = n => n === 0 ? 0 : n - female(male(n - 1));
let f = "", m = "";
for (let n = 0; n < 12; n++) { f += female(n); m += male(n); }
console.log(f, m);

const isEven = n => n === 0 || isOdd(n - 1);
function isOdd(n) { return n !== 0 && isEven(n - 1); }
console.log(isEven(400), isOdd(400), isOdd(7));

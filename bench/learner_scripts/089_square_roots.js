// Whole square roots by Newton's way, by halving, and by subtracting odd numbers.
const div = (a, b) => (a - a % b) / b;

function newton(n) {
  if (n < 4) return n > 0 ? 1 : 0;
  let x = n, y = div(n, 2) + 1;
  while (y < x) {
    x = y;
    y = div(x + div(n, x), 2);
  }
  return x;
}

function halving(n) {
  let low = 0, high = 94906265;
  while (low < high) {
    const middle = div(low + high + 1, 2);
    if (middle * middle <= n) low = middle; else high = middle - 1;
  }
  return low;
}

function oddNumbers(n) {
  let root = 0, odd = 1;
  while (n >= odd) {
    n -= odd;
    odd += 2;
    root++;
  }
  return root;
}

for (const n of [0, 1, 2, 15, 16, 17, 9999, 10000, 123456]) {
  const r = [newton(n), halving(n), oddNumbers(n)];
  console.log(n + ": " + r.join(" ") + (r[0] === r[1] && r[1] === r[2] ? "" : " differ"), n - r[0] * r[0] + " left");
}
console.log(newton(9007199254740991), halving(9007199254740991));

let digits = "1";
let n = 2;
for (let places = 0; places < 6; places++) {
  n *= 100;
  digits = String(newton(n));
}
console.log("the root of 2: " + digits[0] + "." + digits.slice(1));

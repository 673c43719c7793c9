// Powers by squaring, remainders of powers, and inverses.
function power(base, n) {
  let result = 1;
  while (n > 0) {
    if (n & 1) result *= base;
    n >>= 1;
    if (n > 0) base *= base;
  }
  return result;
}

function powerMod(base, n, m) {
  let result = 1 % m;
  base %= m;
  for (; n > 0; n = (n - n % 2) / 2) {
    if (n % 2 === 1) result = result * base % m;
    base = base * base % m;
  }
  return result;
}

function inverse(a, m) {
  let r = m, s = a % m, x = 0, y = 1;
  while (s !== 0) {
    const q = (r - r % s) / s;
    let t = r - q * s; r = s; s = t;
    t = x - q * y; x = y; y = t;
  }
  if (r !== 1) throw RangeError(a + " has no inverse by " + m);
  return (x + m) % m;
}

console.log(power(2, 10), power(3, 33), power(7, 0), power(-2, 31), power(10, 15));
console.log(powerMod(2, 10, 1000), powerMod(3, 200, 13), powerMod(7, 123456789, 1000007), powerMod(5, 0, 1));
let table = "";
for (let n = 1; n < 12; n++) table += powerMod(2, n, 11) + " ";
console.log(table);
for (const a of [3, 7, 10, 6]) {
  try {
    console.log(a + " * " + inverse(a, 26) + " is " + a * inverse(a, 26) % 26 + " by 26");
  } catch (e) {
    console.log(e.name + ": " + e.message);
  }
}

// Numbers of any size as lists of digits, the lowest first.
function big(text) {
  const digits = [];
  for (let i = text.length - 1; i >= 0; i--) digits.push(text.charCodeAt(i) - 48);
  return digits;
}

function show(digits) {
  let text = "";
  for (const d of digits) text = d + text;
  return text;
}

function add(a, b) {
  const sum = [];
  let carry = 0;
  for (let i = 0; i < a.length || i < b.length || carry > 0; i++) {
    const s = (a[i] || 0) + (b[i] || 0) + carry;
    sum.push(s % 10);
    carry = s > 9 ? 1 : 0;
  }
  return sum;
}

function times(a, n) {
  const product = [];
  let carry = 0;
  for (const d of a) {
    const p = d * n + carry;
    product.push(p % 10);
    carry = (p - p % 10) / 10;
  }
  for (; carry > 0; carry = (carry - carry % 10) / 10) product.push(carry % 10);
  return product;
}

function multiply(a, b) {
  let sum = [0], shifted = a.slice();
  for (const d of b) {
    for (let i = 0; i < d; i++) sum = add(sum, shifted);
    shifted = times(shifted, 10);
  }
  return sum;
}

console.log(show(add(big("999999999999999999"), big("1"))));
let f = big("1");
for (let n = 2; n <= 40; n++) f = times(f, n);
console.log("40! = " + show(f));
let power = big("1");
for (let n = 0; n < 100; n++) power = times(power, 2);
console.log("2^100 = " + show(power), power.length + " digits");
let a = big("0"), b = big("1");
for (let n = 0; n < 150; n++) { const c = add(a, b); a = b; b = c; }
console.log("fib 150 = " + show(a));
console.log(show(multiply(big("123456789123456789"), big("987654321987654321"))));

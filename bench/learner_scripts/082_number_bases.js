// Numbers in other bases, there and back.
const digits = "0123456789abcdefghijklmnopqrstuvwxyz";

function toBase(n, base) {
  if (base < 2 || base > 36) throw RangeError("base " + base);
  if (n < 0) return "-" + toBase(-n, base);
  let text = "";
  do {
    text = digits[n % base] + text;
    n = (n - n % base) / base;
  } while (n > 0);
  return text;
}

function fromBase(text, base) {
  let n = 0, i = text[0] === "-" ? 1 : 0;
  const negative = i === 1;
  for (; i < text.length; i++) {
    const d = digits.indexOf(text[i]);
    if (d === -1 || d >= base) throw Error("'" + text[i] + "' is no digit of base " + base);
    n = n * base + d;
  }
  return negative ? -n : n;
}

for (const n of [0, 1, 10, 255, 1000, -37, 9007199254740991]) {
  console.log(n + ": " + toBase(n, 2) + " " + toBase(n, 8) + " " + toBase(n, 16) + " " + toBase(n, 36));
}
let wrong = 0;
for (let base = 2; base <= 36; base += 1) if (fromBase(toBase(123456, base), base) !== 123456) wrong++;
console.log("wrong: " + wrong);
console.log(fromBase("ff", 16) === 0xff, fromBase("777", 8) === 0o777, fromBase("1011", 2) === 0b1011, fromBase("-zz", 36));
try { fromBase("12a", 10); } catch (e) { console.log(e.message); }
try { toBase(-5, 1); } catch (e) { console.log(e.name, e.message); }

// Roman numerals, there and back.
const values = [1000, 900, 500, 400, 100, 90, 50, 40, 10, 9, 5, 4, 1];
const signs = ["M", "CM", "D", "CD", "C", "XC", "L", "XL", "X", "IX", "V", "IV", "I"];

function toRoman(n) {
  if (n < 1 || n > 3999) throw RangeError(n + " has no Roman numeral");
  let text = "";
  for (let i = 0; i < values.length; i++) {
    while (n >= values[i]) {
      text += signs[i];
      n -= values[i];
    }
  }
  return text;
}

function fromRoman(text) {
  const worth = c => values[signs.indexOf(c)];
  let sum = 0;
  for (let i = 0; i < text.length; i++) {
    const here = worth(text[i]);
    const next = i + 1 < text.length ? worth(text[i + 1]) : 0;
    sum += here < next ? -here : here;
  }
  if (toRoman(sum) !== text) throw Error(text + " isn't written well, better " + toRoman(sum));
  return sum;
}

for (const n of [1, 4, 9, 14, 40, 90, 400, 1444, 1987, 2023, 3999]) console.log(n, toRoman(n));
let wrong = 0;
for (let n = 1; n < 400; n++) if (fromRoman(toRoman(n)) !== n) wrong++;
console.log("wrong: " + wrong);
for (const text of ["IIX", "VIIII", "MCMXCIX"]) {
  try {
    console.log(text, fromRoman(text));
  } catch (e) {
    console.log(e.message);
  }
}
try { toRoman(0); } catch (e) { console.log(e.name, e.message); }

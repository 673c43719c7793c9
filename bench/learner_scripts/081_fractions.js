// Fractions with whole parts above and below, kept in lowest terms.
const gcd = (a, b) => b === 0 ? a : gcd(b, a % b);
const lcm = (a, b) => a / gcd(a, b) * b;

function fraction(above, below) {
  if (below === 0) throw RangeError("a fraction needs a part below");
  if (below < 0) { above = 0 - above; below = -below; }
  const g = gcd(above < 0 ? -above : above, below);
  return {
    above: above === 0 ? 0 : above / g,
    below: below / g,
    plus(f) { return fraction(this.above * f.below + f.above * this.below, this.below * f.below); },
    times(f) { return fraction(this.above * f.above, this.below * f.below); },
    inverse() { return fraction(this.below, this.above); },
    less(f) { return this.above * f.below < f.above * this.below; },
    text() { return this.below === 1 ? String(this.above) : this.above + "/" + this.below; },
  };
}

const half = fraction(1, 2), third = fraction(2, 6), minus = fraction(5, -10);
console.log(half.text(), third.text(), minus.text());
console.log(half.plus(third).text(), half.times(third).text(), half.plus(minus).text());
console.log(third.less(half), half.less(third), minus.inverse().text());
let sum = fraction(0, 1);
for (let n = 1; n <= 12; n++) sum = sum.plus(fraction(1, n));
console.log("1 + 1/2 + .. + 1/12 = " + sum.text());
try {
  console.log(half.plus(minus).inverse().text());
} catch (e) {
  console.log(e.name + ": " + e.message);
}
console.log(gcd(1071, 462), gcd(7, 0), lcm(21, 6), lcm(1000000, 999999));
let all = 1;
for (let n = 2; n <= 20; n++) all = lcm(all, n);
console.log("divided by all up to 20:", all);

// A generator of pseudo-random numbers, dice, a shuffle, and the circle by darts.
function generator(seed) {
  return limit => {
    seed = (seed * 69069 + 1) % 4294967296;
    return (seed >>> 8) % limit;
  };
}

const random = generator(2024);
const first = [];
while (first.length < 10) first.push(random(100));
console.log(first.join(" "));
const again = generator(2024);
let same = true;
for (const x of first) same = same && again(100) === x;
console.log("the same seed gives the same numbers:", same);

const count = [0, 0, 0, 0, 0, 0, 0, 0, 0, 0, 0, 0, 0];
for (let i = 0; i < 360; i++) count[random(6) + random(6) + 2]++;
for (let s = 2; s <= 12; s++) {
  let bar = "";
  for (let i = 0; i < count[s]; i += 3) bar += "=";
  console.log((s < 10 ? " " : "") + s + " " + bar);
}

const cards = ["A", "K", "Q", "J", "10", "9", "8", "7"];
for (let i = cards.length - 1; i > 0; i--) {
  const j = random(i + 1), t = cards[i];
  cards[i] = cards[j];
  cards[j] = t;
}
console.log("shuffled: " + cards.join(" "));

let inside = 0;
for (let i = 0; i < 2000; i++) {
  const x = random(1000), y = random(1000);
  if (x * x + y * y < 1000000) inside++;
}
console.log("of 2000 darts " + inside + " are inside");

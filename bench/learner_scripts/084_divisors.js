// Sums of divisors: perfect, rich and poor numbers, and friends.
function divisorSum(n) {
  let sum = n > 1 ? 1 : 0;
  for (let d = 2; d * d <= n; d++) {
    if (n % d === 0) {
      sum += d;
      if (d * d !== n) sum += n / d;
    }
  }
  return sum;
}

function divisors(n) {
  const small = [], large = [];
  for (let d = 1; d * d <= n; d++) {
    if (n % d !== 0) continue;
    small.push(d);
    if (d !== n / d) large.push(n / d);
  }
  while (large.length > 0) small.push(large.pop());
  return small;
}

const kinds = { perfect: [], rich: [], poor: 0 };
for (let n = 2; n <= 500; n++) {
  const s = divisorSum(n);
  if (s === n) kinds.perfect.push(n);
  else if (s > n) kinds.rich.push(n);
  else kinds.poor++;
}
console.log("perfect: " + kinds.perfect.join(" "));
console.log("rich: " + kinds.rich.length + ", first " + kinds.rich.slice(0, 6).join(" "));
console.log("poor: " + kinds.poor);
for (const n of [1, 12, 28, 97, 100]) console.log(n + ": " + divisors(n).join(" "));
for (let a = 200; a < 1300; a++) {
  const b = divisorSum(a);
  if (b > a && divisorSum(b) === a) console.log("friends: " + a + " and " + b);
}

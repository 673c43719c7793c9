// The fewest coins for a sum, and in how many ways it can be paid.
const fewest = (coins, sum) => {
  const best = [[]];
  for (let s = 1; s <= sum; s++) {
    best.push(null);
    for (const c of coins) {
      if (c > s || best[s - c] === null) continue;
      if (best[s] === null || best[s - c].length + 1 < best[s].length) {
        best[s] = best[s - c].slice();
        best[s].push(c);
      }
    }
  }
  return best[sum];
};

const greedy = (coins, sum) => {
  const used = [];
  for (const c of coins) while (sum >= c) { used.push(c); sum -= c; }
  return sum === 0 ? used : null;
};

function ways(coins, sum) {
  const count = [1];
  for (let s = 1; s <= sum; s++) count.push(0);
  for (const c of coins) for (let s = c; s <= sum; s++) count[s] += count[s - c];
  return count[sum];
}

const show = list => list === null ? "impossible" : list.length + " coins (" + list.join(" ") + ")";
for (const sum of [0, 6, 8, 14, 31]) {
  console.log(sum + ": " + show(fewest([10, 4, 1], sum)) + "; greedy " + show(greedy([10, 4, 1], sum)));
}
console.log("7 of 5 and 3: " + show(fewest([5, 3], 7)));
console.log("11 of 5 and 3: " + show(fewest([5, 3], 11)) + "; greedy " + show(greedy([5, 3], 11)));
console.log("ways for 100:", ways([1, 2, 5, 10, 20, 50, 100], 100));

// The knapsack: the greatest worth for a weight, and which things to take.
const things = [
  { name: "tent", weight: 11, worth: 20 },
  { name: "rope", weight: 4, worth: 9 },
  { name: "stove", weight: 6, worth: 13 },
  { name: "bread", weight: 3, worth: 8 },
  { name: "map", weight: 1, worth: 6 },
  { name: "boots", weight: 7, worth: 12 },
];

function pack(things, room) {
  const best = [[]];
  for (let w = 0; w <= room; w++) best[0].push(0);
  for (let i = 0; i < things.length; i++) {
    const row = [], thing = things[i];
    for (let w = 0; w <= room; w++) {
      const without = best[i][w];
      const within = w >= thing.weight ? best[i][w - thing.weight] + thing.worth : -1;
      row.push(within > without ? within : without);
    }
    best.push(row);
  }
  const taken = [];
  for (let i = things.length, w = room; i > 0; i--) {
    if (best[i][w] !== best[i - 1][w]) {
      taken.push(things[i - 1].name);
      w -= things[i - 1].weight;
    }
  }
  return { worth: best[things.length][room], taken };
}

for (const room of [0, 1, 5, 10, 15, 20, 32, 100]) {
  const p = pack(things, room);
  console.log("room " + room + ": worth " + p.worth + " (" + p.taken.join(", ") + ")");
}

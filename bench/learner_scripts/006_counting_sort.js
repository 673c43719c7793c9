// Counting sort of dice throws, and a histogram of them.
const throws = [3, 6, 1, 1, 4, 6, 2, 3, 3, 5, 1, 6, 6, 2, 4];
const counts = [];
for (let face = 0; face <= 6; face++) counts.push(0);
for (const t of throws) counts[t]++;

const sorted = [];
for (let face = 1; face <= 6; face++) {
  let left = counts[face];
  while (left-- > 0) sorted.push(face);
}
console.log(sorted.join(""));

for (let face = 1; face <= 6; face++) {
  let bar = "";
  for (let i = 0; i < counts[face]; i++) bar += "#";
  console.log(face + " | " + bar + " " + counts[face]);
}

let most = 1;
for (let face = 2; face <= 6; face++) {
  if (counts[face] > counts[most]) most = face;
}
console.log("most often:", most);

// Radix sort: the lowest digit first, ten boxes.
function digit(n, place) {
  while (place > 0) {
    n = (n - n % 10) / 10;
    place--;
  }
  return n % 10;
}

function radixSort(numbers) {
  let most = 0;
  for (const n of numbers) if (n > most) most = n;
  let place = 0;
  for (let power = 1; power <= most; power *= 10) {
    const boxes = [[], [], [], [], [], [], [], [], [], []];
    for (const n of numbers) boxes[digit(n, place)].push(n);
    numbers = [];
    for (let b = 0; b < 10; b++) {
      if (boxes[b].length > 0) console.log("  place " + place + ", box " + b + ": " + boxes[b].join(","));
      for (const n of boxes[b]) numbers.push(n);
    }
    place++;
  }
  return numbers;
}

console.log(radixSort([170, 45, 75, 90, 802, 24, 2, 66, 1000]).join(" "));
console.log("nothing:", radixSort([]).length);

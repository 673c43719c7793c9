// Bubble sort: neighbours change places until a whole pass changes nothing.
function bubbleSort(list) {
  let passes = 0;
  let swapped;
  do {
    swapped = false;
    for (let i = 1; i < list.length; i++) {
      if (list[i - 1] > list[i]) {
        const keep = list[i];
        list[i] = list[i - 1];
        list[i - 1] = keep;
        swapped = true;
      }
    }
    passes++;
    console.log("pass " + passes + ": " + list.join(" "));
  } while (swapped);
  return passes;
}

const numbers = [5, -2, 9, 0, 5, 31, 4];
console.log("before: " + numbers.join(" "));
console.log("passes", bubbleSort(numbers));
console.log("empty takes", bubbleSort([]));

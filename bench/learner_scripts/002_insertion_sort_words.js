// Insertion sort of words; strings are compared unit by unit.
const words = ["pear", "Apple", "fig", "apple", "", "figs", "banana", "Zebra", "a b", "a-b"];

function insert(sorted, word) {
  let i = sorted.length;
  sorted.push(word);
  while (i > 0 && sorted[i - 1] > word) {
    sorted[i] = sorted[i - 1];
    i--;
  }
  sorted[i] = word;
}

const sorted = [];
for (const word of words) {
  insert(sorted, word);
  console.log("[" + sorted.join("|") + "]");
}
console.log("first is empty:", sorted[0] === "");
console.log("still", words.length, "words, the first is", words[0]);

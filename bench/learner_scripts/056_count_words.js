// Counts lines, words and letters of the input, and lists the most frequent words.
const upper = "ABCDEFGHIJKLMNOPQRSTUVWXYZ";
const lower = "abcdefghijklmnopqrstuvwxyz";
const counts = {};
let lineCount = 0, wordCount = 0, letterCount = 0;

function addWord(word) {
  if (word === "") return;
  wordCount++;
  counts[word] = (counts[word] || 0) + 1;
}

let line;
while ((line = readline()) !== null) {
  lineCount++;
  let word = "";
  for (let i = 0; i < line.length; i++) {
    let c = line[i];
    if (upper.indexOf(c) >= 0) c = lower[upper.indexOf(c)];
    if (lower.indexOf(c) >= 0) {
      word += c;
      letterCount++;
    } else {
      addWord(word);
      word = "";
    }
  }
  addWord(word);
}
console.log("lines " + lineCount + ", words " + wordCount + ", letters " + letterCount);

const words = Object.keys(counts);
for (let i = 0; i < words.length; i++) {
  for (let j = i + 1; j < words.length; j++) {
    const a = counts[words[i]], b = counts[words[j]];
    if (b > a || b === a && words[j] < words[i]) {
      const t = words[i];
      words[i] = words[j];
      words[j] = t;
    }
  }
}
for (const w of words.slice(0, 8)) console.log(counts[w] + "\t" + w);
console.log("only once:", words.length - words.slice(0, 8).length, "others");

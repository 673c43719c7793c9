// Groups words that have the same letters.
function key(word) {
  const letters = [];
  for (let i = 0; i < word.length; i++) {
    let j = letters.length;
    letters.push(word[i]);
    for (; j > 0 && letters[j - 1] > word[i]; j--) letters[j] = letters[j - 1];
    letters[j] = word[i];
  }
  return letters.join("");
}

const words = ["listen", "google", "silent", "tinsel", "night", "thing", "enlist", "gogole", "a", "inlets", "lone"];
const groups = {};
for (const word of words) {
  const k = key(word);
  if (!groups[k]) groups[k] = [];
  groups[k].push(word);
}

let alone = 0;
for (const k of Object.keys(groups)) {
  const group = groups[k];
  if (group.length === 1) { alone++; continue; }
  console.log(k + ": " + group.join(", "));
}
console.log("alone: " + alone);

function isAnagram(a, b) {
  return a !== b && key(a) === key(b);
}
console.log(isAnagram("dusty", "study"), isAnagram("dusty", "dusty"), isAnagram("aab", "abb"));

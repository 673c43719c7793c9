// Finds a pattern in a text by hand and by a table of borders, and compares with indexOf.
function naive(text, pattern) {
  for (let i = 0; i + pattern.length <= text.length; i++) {
    let j = 0;
    while (j < pattern.length && text[i + j] === pattern[j]) j++;
    if (j === pattern.length) return i;
  }
  return -1;
}

function borders(pattern) {
  const table = [0];
  let k = 0;
  for (let i = 1; i < pattern.length; i++) {
    while (k > 0 && pattern[i] !== pattern[k]) k = table[k - 1];
    if (pattern[i] === pattern[k]) k++;
    table.push(k);
  }
  return table;
}

function clever(text, pattern) {
  if (pattern === "") return 0;
  const table = borders(pattern);
  let k = 0;
  for (let i = 0; i < text.length; i++) {
    while (k > 0 && text[i] !== pattern[k]) k = table[k - 1];
    if (text[i] === pattern[k]) k++;
    if (k === pattern.length) return i - k + 1;
  }
  return -1;
}

console.log(borders("abacabab").join(" "));
const text = "abababacabacababcc";
for (const pattern of ["aba", "abacabab", "cc", "ccc", "", "b", "bb", text, text + "c"]) {
  const a = naive(text, pattern), b = clever(text, pattern), c = text.indexOf(pattern);
  console.log("'" + pattern + "'", a, b, c, a === b && b === c);
}

// A trie: words that share their beginnings, and completing a word.
const root = { next: {}, isWord: false };

function add(word) {
  let node = root;
  for (let i = 0; i < word.length; i++) {
    const c = word[i];
    if (!node.next[c]) node.next[c] = { next: {}, isWord: false };
    node = node.next[c];
  }
  node.isWord = true;
}

function complete(prefix) {
  let node = root;
  for (let i = 0; i < prefix.length; i++) {
    node = node.next[prefix[i]];
    if (!node) return [];
  }
  const found = [];
  const walk = (node, word) => {
    if (node.isWord) found.push(word);
    for (const c of Object.keys(node.next)) walk(node.next[c], word + c);
  };
  walk(node, prefix);
  return found;
}

function countNodes(node) {
  let n = 1;
  for (const c of Object.keys(node.next)) n += countNodes(node.next[c]);
  return n;
}

const words = ["tea", "ten", "to", "team", "inn", "in", "i", "tents"];
for (const w of words) add(w);
for (const p of ["te", "i", "x", "team", "teams"]) {
  const found = complete(p);
  console.log(p + "... " + (found.length === 0 ? "nothing" : found.join(" ")));
}
console.log("nodes", countNodes(root), "words", complete("").length);

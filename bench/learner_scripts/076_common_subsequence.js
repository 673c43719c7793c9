// The longest common subsequence of two texts, by a recursion that remembers.
function lcs(a, b) {
  const known = {};
  let looked = 0, computed = 0;
  function from(i, j) {
    if (i === a.length || j === b.length) return "";
    const key = i + "," + j;
    looked++;
    if (known[key] !== undefined) return known[key];
    computed++;
    let best;
    if (a[i] === b[j]) best = a[i] + from(i + 1, j + 1);
    else {
      const x = from(i + 1, j), y = from(i, j + 1);
      best = x.length >= y.length ? x : y;
    }
    return known[key] = best;
  }
  return { text: from(0, 0), looked, computed };
}

function marked(text, part) {
  let result = "", k = 0;
  for (let i = 0; i < text.length; i++) {
    if (k < part.length && text[i] === part[k]) { result += "[" + text[i] + "]"; k++; }
    else result += text[i];
  }
  return result;
}

for (const pair of [["AGGTAB", "GXTXAYB"], ["nothing", "QQQ"], ["programming", "gaming"], ["", ""], ["abcdef", "acf"]]) {
  const r = lcs(pair[0], pair[1]);
  console.log("'" + r.text + "'", r.text.length, marked(pair[0], r.text), marked(pair[1], r.text));
  const later = lcs(pair[0], pair[1]);
  if (later.text !== r.text) console.log("not the same again!");
}
const r = lcs("ABCBDABXYZ", "BDCABAZYX");
console.log(r.text, "looked " + r.looked, "computed " + r.computed);

// The edit distance of two words, with the edits that lead from one to the other.
const least = (a, b, c) => a <= b && a <= c ? a : b <= c ? b : c;

function distances(a, b) {
  const d = [];
  for (let i = 0; i <= a.length; i++) {
    d.push([]);
    for (let j = 0; j <= b.length; j++) {
      if (i === 0) d[i].push(j);
      else if (j === 0) d[i].push(i);
      else {
        const change = d[i - 1][j - 1] + (a[i - 1] === b[j - 1] ? 0 : 1);
        d[i].push(least(change, d[i - 1][j] + 1, d[i][j - 1] + 1));
      }
    }
  }
  return d;
}

function edits(a, b) {
  const d = distances(a, b), steps = [];
  let i = a.length, j = b.length;
  while (i > 0 || j > 0) {
    if (i > 0 && j > 0 && a[i - 1] === b[j - 1] && d[i][j] === d[i - 1][j - 1]) { i--; j--; }
    else if (i > 0 && j > 0 && d[i][j] === d[i - 1][j - 1] + 1) steps.push(a[--i] + ">" + b[--j]);
    else if (i > 0 && d[i][j] === d[i - 1][j] + 1) steps.push("-" + a[--i]);
    else steps.push("+" + b[--j]);
  }
  let text = "";
  while (steps.length > 0) text += " " + steps.pop();
  return d[a.length][b.length] + ":" + text;
}

for (const pair of [["kitten", "sitting"], ["", "abc"], ["abc", ""], ["same", "same"], ["flaw", "lawn"], ["Saturday", "Sunday"]]) {
  console.log(pair.join(" > "), edits(pair[0], pair[1]));
}
for (const row of distances("cat", "coat")) console.log(row.join(" "));

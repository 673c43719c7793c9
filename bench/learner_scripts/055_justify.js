// Breaks a text into lines of a width: to the left, to the right, in the middle, and as a block.
const text = "The boat drifted slowly down the river while the sun went under, and nobody on board said a single word.";

function split(text) {
  const words = [];
  let start = 0;
  for (let i = 0; i <= text.length; i++) {
    if (i === text.length || text[i] === " ") {
      if (i > start) words.push(text.slice(start, i));
      start = i + 1;
    }
  }
  return words;
}

const spaces = n => { let s = ""; while (s.length < n) s += " "; return s; };

function lines(words, width) {
  const all = [];
  let line = [], length = 0;
  for (const w of words) {
    if (line.length > 0 && length + line.length + w.length > width) {
      all.push(line);
      line = [];
      length = 0;
    }
    line.push(w);
    length += w.length;
  }
  all.push(line);
  return all;
}

function block(line, width) {
  if (line.length === 1) return line[0] + spaces(width - line[0].length);
  const gaps = line.length - 1, room = width - line.join("").length;
  let result = line[0];
  for (let i = 1; i <= gaps; i++) {
    const extra = i <= room % gaps ? 1 : 0;
    result += spaces((room - room % gaps) / gaps + extra) + line[i];
  }
  return result;
}

const styles = {
  left: (s, width) => s + spaces(width - s.length),
  right: (s, width) => spaces(width - s.length) + s,
  middle: (s, width) => { const n = width - s.length >> 1; return spaces(n) + s + spaces(width - s.length - n); },
};
const cut = lines(split(text), 22);
for (const name of Object.keys(styles)) {
  console.log(name + ":");
  for (const line of cut) console.log("|" + styles[name](line.join(" "), 22) + "|");
}
console.log("block:");
for (let i = 0; i < cut.length; i++) console.log("|" + (i < cut.length - 1 ? block(cut[i], 22) : cut[i].join(" ")) + "|");

// Reads lines of values between commas, with quotes, and makes a report; bad lines are told.
function cells(line) {
  const list = [];
  let cell = "", quoted = false;
  for (let i = 0; i < line.length; i++) {
    const c = line[i];
    if (quoted) {
      if (c !== '"') cell += c;
      else if (line[i + 1] === '"') { cell += '"'; i++; }
      else quoted = false;
    } else if (c === '"' && cell === "") quoted = true;
    else if (c === ",") { list.push(cell); cell = ""; }
    else cell += c;
  }
  if (quoted) throw Error("a quote stays open");
  list.push(cell);
  return list;
}

function whole(text) {
  if (text === "") throw Error("an empty number");
  let n = 0;
  for (let i = 0; i < text.length; i++) {
    const d = text.charCodeAt(i) - 48;
    if (d < 0 || d > 9) throw TypeError("'" + text + "' is no number");
    n = n * 10 + d;
  }
  return n;
}

const names = cells(readline());
let total = 0, lineNumber = 1, bad = 0;
for (let line = readline(); line !== null; line = readline()) {
  lineNumber++;
  try {
    const row = {}, list = cells(line);
    if (list.length !== names.length) throw RangeError(list.length + " cells");
    for (let i = 0; i < names.length; i++) row[names[i]] = list[i];
    const sum = whole(row.price) * whole(row.count);
    console.log((row.item || "(no name)") + ": " + row.price + " x " + row.count + " = " + sum);
    total += sum;
  } catch (e) {
    bad++;
    console.log("line " + lineNumber + ": " + e.name + ": " + e.message);
  }
}
console.log("total", total, "bad lines", bad);

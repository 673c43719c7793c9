// Checks finished sudokus: rows, columns and boxes.
const good = [
  "534678912", "672195348", "198342567",
  "859761423", "426853791", "713924856",
  "961537284", "287419635", "345286179",
];

function faults(rows) {
  const found = [];
  function check(name, place) {
    const seen = {};
    for (let k = 0; k < 9; k++) {
      const c = place(k);
      if (c === undefined || "123456789".indexOf(c) < 0) found.push(name + " has " + (c || "nothing"));
      else if (seen[c]) found.push(name + " has " + c + " twice");
      else seen[c] = true;
    }
  }
  if (rows.length !== 9) throw RangeError(rows.length + " rows");
  for (let i = 0; i < 9; i++) {
    check("row " + (i + 1), k => rows[i][k]);
    check("column " + (i + 1), k => rows[k][i]);
    const top = i - i % 3, left = i % 3 * 3;
    check("box " + (i + 1), k => rows[top + (k - k % 3) / 3][left + k % 3]);
  }
  return found;
}

function report(name, rows) {
  try {
    const list = faults(rows);
    console.log(name + ": " + (list.length === 0 ? "correct" : list.length + " faults"));
    for (const f of list.slice(0, 4)) console.log("  " + f);
  } catch (e) {
    console.log(name + ": " + e.message);
  }
}

report("good", good);
const swapped = good.slice();
swapped[0] = "354678912";
report("two digits swapped", swapped);
const rowsSwapped = good.slice();
rowsSwapped[0] = good[1]; rowsSwapped[1] = good[0];
report("two rows swapped", rowsSwapped);
const short = good.slice();
short[8] = "34528617";
report("a digit is missing", short);
report("no rows", []);

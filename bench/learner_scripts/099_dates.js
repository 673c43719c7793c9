// Dates: leap years, days between, days of the week, and a calendar of a month.
const lengths = [31, 28, 31, 30, 31, 30, 31, 31, 30, 31, 30, 31];
const names = ["Mon", "Tue", "Wed", "Thu", "Fri", "Sat", "Sun"];
const div = (a, b) => (a - a % b) / b;
const isLeap = y => y % 4 === 0 && (y % 100 !== 0 || y % 400 === 0);
const monthLength = (y, m) => m === 2 && isLeap(y) ? 29 : lengths[m - 1];

// days since the first of January of the year 1, a Monday
function days(y, m, d) {
  if (m < 1 || m > 12 || d < 1 || d > monthLength(y, m)) throw RangeError("no such day: " + [y, m, d].join("-"));
  const past = y - 1;
  let n = past * 365 + div(past, 4) - div(past, 100) + div(past, 400);
  for (let k = 1; k < m; k++) n += monthLength(y, k);
  return n + d - 1;
}

function plus(y, m, d, n) {
  d += n;
  while (d > monthLength(y, m)) {
    d -= monthLength(y, m);
    if (++m > 12) { m = 1; y++; }
  }
  return [y, m, d].join("-");
}

for (const y of [1900, 2000, 2023, 2024]) console.log(y, isLeap(y) ? "leap year" : "common year");
console.log(names[days(1969, 7, 20) % 7], names[days(2000, 1, 1) % 7], names[days(1, 1, 1) % 7]);
console.log("from 1969-7-20 to 2000-1-1:", days(2000, 1, 1) - days(1969, 7, 20), "days");
console.log(plus(2023, 12, 31, 1), plus(2024, 2, 28, 1), plus(2023, 2, 28, 1), plus(2024, 1, 1, 1000));
try { days(2023, 2, 29); } catch (e) { console.log(e.message); }

function calendar(y, m) {
  console.log(y + "-" + (m < 10 ? "0" : "") + m + "\n" + names.join(" "));
  let line = "";
  for (let i = 0; i < days(y, m, 1) % 7; i++) line += "    ";
  for (let d = 1; d <= monthLength(y, m); d++) {
    line += ("  " + d).slice(-3) + " ";
    if (line.length === 28 || d === monthLength(y, m)) {
      console.log(line);
      line = "";
    }
  }
}
calendar(2024, 2);

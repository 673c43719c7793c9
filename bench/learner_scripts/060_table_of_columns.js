// Prints records as a table whose columns are as wide as their widest entry.
const records = [
  { city: "Lima", country: "Peru", people: 10092000 },
  { city: "Bergen", country: "Norway", people: 291940 },
  { city: "Ur", country: null, people: 0 },
  { city: "Wellington", country: "New Zealand", people: 215200 },
];

function commas(n) {
  let s = String(n), result = "";
  while (s.length > 3) {
    result = "," + s.slice(-3) + result;
    s = s.slice(0, -3);
  }
  return s + result;
}

const text = v => v === null ? "-" : typeof v === "number" ? commas(v) : v;
const pad = (s, n, left) => {
  while (s.length < n) s = left ? " " + s : s + " ";
  return s;
};

function table(records) {
  const keys = Object.keys(records[0]), widths = {};
  for (const k of keys) {
    widths[k] = k.length;
    for (const r of records) {
      const n = text(r[k]).length;
      if (n > widths[k]) widths[k] = n;
    }
  }
  const row = (f, gap) => {
    const cells = [];
    for (const k of keys) cells.push(f(k));
    console.log(cells.join(gap));
  };
  row(k => pad(k, widths[k], false), " | ");
  row(k => { let s = ""; while (s.length < widths[k]) s += "-"; return s; }, "-+-");
  for (const r of records) row(k => pad(text(r[k]), widths[k], typeof r[k] === "number"), " | ");
}

table(records);
table([{ n: 1, "n squared": 1 }, { n: 12, "n squared": 144 }]);
console.log(commas(7), commas(999), commas(1000), commas(9007199254740991));

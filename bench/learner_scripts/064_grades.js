// Marks of pupils over the lines of the input: means, medians, and how often each mark was given.
function words(line) {
  const list = [];
  let word = "";
  for (let i = 0; i < line.length; i++) {
    if (line[i] !== " ") word += line[i];
    if (word !== "" && (line[i] === " " || i === line.length - 1)) {
      list.push(word);
      word = "";
    }
  }
  return list;
}

// a quotient with two places
function quotient(a, b) {
  const hundredths = (a * 100 - a * 100 % b) / b, places = hundredths % 100;
  return (hundredths - places) / 100 + "." + (places < 10 ? "0" : "") + places;
}

function median(list) {
  const sorted = list.slice();
  for (let i = 1; i < sorted.length; i++)
    for (let j = i; j > 0 && sorted[j - 1] > sorted[j]; j--) {
      const t = sorted[j]; sorted[j] = sorted[j - 1]; sorted[j - 1] = t;
    }
  const middle = sorted.length >> 1;
  return sorted.length % 2 === 1 ? quotient(sorted[middle], 1) : quotient(sorted[middle - 1] + sorted[middle], 2);
}

const pupils = {}, given = { 1: 0, 2: 0, 3: 0, 4: 0, 5: 0, 6: 0 };
let line;
while ((line = readline()) !== null) {
  const parts = words(line), name = parts[0], marks = pupils[name] || (pupils[name] = []);
  for (const word of parts.slice(1)) {
    const mark = "123456".indexOf(word) + 1;
    if (mark === 0 || word.length !== 1) {
      console.log(name + ": '" + word + "' is no mark");
      continue;
    }
    given[mark]++;
    marks.push(mark);
  }
}
for (const name of Object.keys(pupils)) {
  const marks = pupils[name];
  let sum = 0;
  for (const m of marks) sum += m;
  console.log(name + ": " + (marks.length === 0 ? "no marks" : "mean " + quotient(sum, marks.length) + ", median " + median(marks)));
}
for (const mark of Object.keys(given)) console.log("mark " + mark + ": " + given[mark]);

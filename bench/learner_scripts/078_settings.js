// Reads settings from the input; a bad line is thrown as an object, and nobody catches it.
function trim(text) {
  while (text[0] === " ") text = text.slice(1);
  while (text.slice(-1) === " ") text = text.slice(0, -1);
  return text;
}

const settings = {};
let number = 0;

function readLine(line) {
  const clean = trim(line);
  if (clean === "" || clean[0] === "#") return false;
  const at = clean.indexOf("=");
  if (at < 0) throw { line: number, text: clean, reason: "no '='" };
  const key = trim(clean.slice(0, at)), value = trim(clean.slice(at + 1));
  if (settings[key] !== undefined) console.log("line " + number + ": " + key + " was " + settings[key]);
  settings[key] = value;
  return true;
}

function readAll() {
  let count = 0;
  try {
    for (let line = readline(); line !== null; line = readline()) {
      number++;
      if (readLine(line)) count++;
    }
    console.log("all lines are good");
  } catch (e) {
    console.log("line " + e.line + " ('" + e.text + "'): " + e.reason);
    throw e;
  } finally {
    console.log(count + " settings after " + number + " lines");
    for (const key of Object.keys(settings)) console.log("  " + key + " -> '" + settings[key] + "'");
  }
}

readAll();
console.log("the game begins");

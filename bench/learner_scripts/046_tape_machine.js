// An interpreter for the eight signs of a famous tiny language, with cells of one byte.
const codes = " !\"#$%&'()*+,-./0123456789:;<=>?@ABCDEFGHIJKLMNOPQRSTUVWXYZ[\\]^_`abcdefghijklmnopqrstuvwxyz{|}~";
const char = n => n === 10 ? "\n" : n >= 32 && n < 127 ? codes[n - 32] : "?";

function run(program, input) {
  const partner = {}, open = [];
  for (let i = 0; i < program.length; i++) {
    if (program[i] === "[") open.push(i);
    if (program[i] === "]") {
      if (open.length === 0) throw Error("] at " + i + " has no partner");
      const j = open.pop();
      partner[i] = j;
      partner[j] = i;
    }
  }
  if (open.length > 0) throw Error("[ at " + open.pop() + " has no partner");
  const tape = [0];
  let at = 0, read = 0, out = "", steps = 0;
  for (let i = 0; i < program.length; i++) {
    const c = program[i];
    steps++;
    if (c === "+") tape[at] = tape[at] + 1 & 255;
    else if (c === "-") tape[at] = tape[at] - 1 & 255;
    else if (c === ">") { if (++at === tape.length) tape.push(0); }
    else if (c === "<") at--;
    else if (c === ".") out += char(tape[at]);
    else if (c === ",") tape[at] = read < input.length ? input.charCodeAt(read++) : 0;
    else if (c === "[") { if (tape[at] === 0) i = partner[i]; }
    else if (c === "]") { if (tape[at] !== 0) i = partner[i]; }
    else steps--;
  }
  return out + " (" + steps + " steps, " + tape.length + " cells)";
}

console.log(run("++++++++[>+++++++++<-]>.<+++++[>++++++<-]>-.+++++++..+++.", ""));
console.log(run(">,[>,]<[.<]", "desserts"));
console.log(run("below zero is 255: -[>+<---]>.", ""));
for (const bad of ["+[[-]", "]["]) {
  try { console.log(run(bad, "")); } catch (e) { console.log(e.message); }
}

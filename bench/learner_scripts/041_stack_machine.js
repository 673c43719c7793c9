// A stack machine with jumps and calls; its program computes a factorial.
const operations = {
  push: (m, n) => { m.stack.push(n); },
  pop: m => { m.stack.pop(); },
  over: m => { m.stack.push(m.stack[m.stack.length - 2]); },
  swap: m => { const a = m.stack.pop(), b = m.stack.pop(); m.stack.push(a, b); },
  mul: m => { m.stack.push(m.stack.pop() * m.stack.pop()); },
  dec: m => { m.stack[m.stack.length - 1]--; },
  jump: (m, to) => { m.at = to; },
  zero: (m, to) => { if (m.stack[m.stack.length - 1] === 0) m.at = to; },
  call: (m, to) => { m.back.push(m.at); m.at = to; },
  ret: m => { m.at = m.back.pop(); },
  print: m => { console.log("=> " + m.stack.pop()); },
};

function run(program, input) {
  const m = { stack: [input], back: [], at: 0, steps: 0 };
  while (m.at < program.length) {
    const line = program[m.at++];
    const f = operations[line[0]];
    if (!f) throw TypeError("unknown operation " + line[0] + " in line " + (m.at - 1));
    f(m, line[1]);
    m.steps++;
  }
  console.log(m.steps + " steps, " + m.stack.length + " left");
}

const factorial = [
  ["call", 3], ["print"], ["jump", 16],
  ["push", 1], ["swap"],
  ["zero", 9], ["call", 11], ["dec"], ["jump", 5],
  ["pop"], ["ret"],
  ["swap"], ["over"], ["mul"], ["swap"], ["ret"],
];
for (const n of [0, 1, 5, 18]) run(factorial, n);
try { run([["push", 1], ["fly"]], 0); } catch (e) { console.log(e.message); }

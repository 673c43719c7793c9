// A list of things to do over the lines of the input; each change can be undone.
let tasks = [];
const undos = [];

function copy(list) {
  const all = [];
  for (const t of list) all.push({ text: t.text, isDone: t.isDone });
  return all;
}

function position(text) {
  const n = "123456789".indexOf(text);
  if (text === "" || n < 0 || n >= tasks.length) throw RangeError("no task " + (text || "(nothing)"));
  return n;
}

const changes = {
  add: text => { tasks.push({ text, isDone: false }); },
  done: text => { tasks[position(text)].isDone = true; },
  remove: text => {
    const at = position(text), kept = [];
    for (let i = 0; i < tasks.length; i++) if (i !== at) kept.push(tasks[i]);
    tasks = kept;
  },
};

function list() {
  if (tasks.length === 0) console.log("  nothing to do");
  for (let i = 0; i < tasks.length; i++) console.log("  " + (i + 1) + (tasks[i].isDone ? " [x] " : " [ ] ") + tasks[i].text);
}

function undo() {
  if (undos.length === 0) throw Error("nothing to undo");
  const last = undos.pop();
  tasks = last.tasks;
  console.log("  undone: " + last.line);
}

for (let line = readline(); line !== null; line = readline()) {
  const space = line.indexOf(" ");
  const verb = space < 0 ? line : line.slice(0, space), rest = space < 0 ? "" : line.slice(space + 1);
  console.log(line);
  try {
    if (verb === "list") list();
    else if (verb === "undo") undo();
    else if (changes[verb]) {
      const before = copy(tasks);
      changes[verb](rest);
      undos.push({ tasks: before, line });
    } else throw ReferenceError("unknown: " + verb);
  } catch (e) {
    console.log("  " + e.name + ": " + e.message);
  }
}

// What runs when: try, catch and finally in all their ways; the last throw is caught by nobody.
const log = [];
const say = word => { log.push(word); return word; };

function path(kind) {
  log.length = 0;
  for (let turn = 0; turn < 3; turn++) {
    try {
      say("try" + turn);
      if (kind === "throw") throw "oops";
      if (kind === "return") return say("value");
      if (kind === "break") break;
      if (kind === "continue") continue;
      say("end");
    } catch (e) {
      say("caught " + e);
      if (turn === 1) return "from catch";
    } finally {
      say("finally" + turn);
      if (kind === "hidden" && turn === 0) return "from finally";
    }
    say("behind");
  }
  return "from the end";
}

for (const kind of ["none", "throw", "return", "break", "continue", "hidden"]) {
  const result = path(kind);
  console.log(kind + ": " + result + " <- " + log.join(", "));
}

function nested() {
  try {
    try {
      throw Error("first");
    } finally {
      throw Error("second");
    }
  } catch (e) {
    return e.message;
  }
}
console.log("nested: " + nested());

try {
  try { throw Error("not taken"); } finally { console.log("on its way"); }
} finally {
  console.log("still on its way");
}
console.log("never reached");

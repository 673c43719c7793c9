// Mistakes that everybody makes, and what the engine says; the last one ends the program.
"nothing happens";
const fixed = 5;
let later, point = { x: 1 };

const mistakes = [
  () => later.x,
  () => null.size,
  () => { later.x = 1; },
  () => point.position.x,
  () => { fixed = 6; },
  () => misspelt + 1,
  () => { soon; let soon = 1; },
  () => { typo = 3; },
  () => { throw "only a text"; },
  () => { throw 404; },
  () => { throw null; },
  () => { throw Error(); },
  () => { throw TypeError("my own"); },
  () => { debugger; return void 0; },
];

function told(e) {
  if (e === null) return "null";
  return typeof e === "object" ? e.name + (e.message === "" ? "" : ": " + e.message) : typeof e + " " + e;
}

for (let i = 0; i < mistakes.length; i++) {
  try {
    const result = mistakes[i]();
    console.log(i + " goes well: " + result);
  } catch (e) {
    console.log(i + " " + told(e));
  }
}
console.log(typeof misspelt, typeof later, typeof point.position, fixed);
if (later = 0) console.log("no");
else console.log("an assignment is no comparison:", later);
const list = [1, 2, 3];
console.log(list[3], list[-1], list["1"], list.size, "text".size);
console.log((1, 2, 3), 1 + 2 + "3" + 4 + 5, -"ab".length, !list.length);
console.log(point.position.x);
console.log("not printed");

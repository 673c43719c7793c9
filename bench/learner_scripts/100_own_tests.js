// A small tool for tests: it counts, tells what failed, and ends the program with an error if something did.
let passed = 0;
const failures = [];

function test(name, run) {
  try {
    run();
    passed++;
  } catch (e) {
    failures.push(name);
    console.log("FAILED " + name + ": " + e.message);
  }
}

function show(x) {
  if (typeof x === "string") return "'" + x + "'";
  if (!Array.isArray(x)) return String(x);
  const parts = [];
  for (const y of x) parts.push(show(y));
  return "[" + parts.join(", ") + "]";
}

const equal = (got, wanted) => {
  if (show(got) !== show(wanted)) throw Error("got " + show(got) + ", wanted " + show(wanted));
};

function throws(run, name) {
  try {
    run();
  } catch (e) {
    if (e.name === name) return;
    throw Error("threw a " + e.name + ", wanted a " + name);
  }
  throw Error("threw nothing");
}

const max = list => { let m = list[0]; for (const x of list) if (x > m) m = x; return m; };
const unique = list => { const u = []; for (const x of list) if (u.indexOf(x) === -1) u.push(x); return u; };
const initials = name => { let s = name[0]; for (let i = 1; i < name.length; i++) if (name[i - 1] === " ") s += name[i]; return s; };

test("max of some", () => equal(max([3, 9, 2]), 9));
test("max of none", () => equal(max([]), undefined));
test("max of the negative", () => equal(max([-3, -9]), -9));
test("unique keeps the order", () => equal(unique([3, 1, 3, 2, 1]), [3, 1, 2]));
test("unique of mixed", () => equal(unique([1, "1", null, undefined, null]), [1, "1", null, undefined]));
test("nested", () => equal([[1, ["a"]], []], [[1, ["a"]], []]));
test("initials", () => equal(initials("Ada King Lovelace"), "AKL"));
test("initials of nothing", () => equal(initials(""), ""));
test("throws", () => throws(() => null.x, "TypeError"));
test("throws another", () => throws(() => nothing(), "TypeError"));
test("throws nothing", () => throws(() => 1, "Error"));

console.log(passed + " passed, " + failures.length + " failed: " + failures.join(", "));
if (failures.length > 0) throw Error(failures.length + " tests failed");
console.log("all is well");

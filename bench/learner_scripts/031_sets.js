// Sets of texts as objects: union, meet, difference, subsets.
function setOf(list) {
  const set = {};
  for (const x of list) set[x] = true;
  return set;
}
const has = (set, x) => set[x] === true;
const show = set => "{" + Object.keys(set).join(", ") + "}";
const size = set => Object.keys(set).length;

function union(a, b) {
  const all = {};
  for (const x of Object.keys(a)) all[x] = true;
  for (const x of Object.keys(b)) all[x] = true;
  return all;
}
function only(a, test) {
  const some = {};
  for (const x of Object.keys(a)) if (test(x)) some[x] = true;
  return some;
}
const meet = (a, b) => only(a, x => has(b, x));
const minus = (a, b) => only(a, x => !has(b, x));
const isPart = (a, b) => size(minus(a, b)) === 0;

const fruit = setOf(["apple", "tomato", "cherry", "apple"]);
const red = setOf(["tomato", "cherry", "rose", "10", "9"]);
console.log(show(fruit), size(fruit));
console.log(show(red));
console.log("union", show(union(fruit, red)));
console.log("meet", show(meet(fruit, red)));
console.log("minus", show(minus(fruit, red)), show(minus(red, fruit)));
console.log(isPart(meet(fruit, red), fruit), isPart(fruit, red), isPart({}, {}));
delete red.rose;
delete red["10"];
console.log(show(red), has(red, "rose"), delete red.nothing);

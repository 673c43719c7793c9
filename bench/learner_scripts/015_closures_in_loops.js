// Each turn of a for loop has its own name; a name outside is shared.
const own = [];
for (let i = 0; i < 3; i++) own.push(() => i);

const shared = [];
let k = 0;
while (k < 3) {
  shared.push(() => k);
  k++;
}

const changed = [];
for (let i = 0; i < 6; i++) {
  changed.push(() => i++);
  i++;
}

const letters = [];
for (const c of ["x", "y", "z"]) letters.push(function () { return c + c; });

function callAll(label, list) {
  const values = [];
  for (const f of list) values.push(f());
  console.log(label + ": " + values.join(" "));
}
callAll("own", own);
callAll("shared", shared);
callAll("changed", changed);
callAll("changed again", changed);
callAll("letters", letters);

let first;
for (let n = 0, show = () => n; n < 2; n++) {
  if (n === 0) first = show;
}
console.log("the head's own scope keeps", first());

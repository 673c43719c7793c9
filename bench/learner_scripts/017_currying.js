// Currying by hand, for any number of arguments.
function curry(f, n, got) {
  return x => {
    const all = got.slice();
    all.push(x);
    return all.length === n ? f(all) : curry(f, n, all);
  };
}

const add3 = curry(list => list[0] + list[1] + list[2], 3, []);
console.log(add3(1)(2)(3));
const addTo10 = add3(4)(6);
console.log(addTo10(0), addTo10(90), addTo10(-10));

const between = low => high => n => low <= n && n <= high;
const isTeen = between(13)(19);
const isDigit = between("0")("9");
for (const age of [12, 13, 19, 20]) console.log(age, isTeen(age) ? "teen" : "no teen");
console.log(isDigit("7"), isDigit("x"));

const tag = name => attribute => text =>
  "<" + name + (attribute === "" ? "" : " " + attribute) + ">" + text + "</" + name + ">";
const paragraph = tag("p")("");
const link = tag("a")("href='#'");
console.log(paragraph("See " + link("this") + "."));

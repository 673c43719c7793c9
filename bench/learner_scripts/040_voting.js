// An election: each line ranks candidates; the last one goes out until one has more than half.
function names(line) {
  const list = [];
  let rest = line + ">";
  while (rest !== "") {
    const at = rest.indexOf(">");
    if (at === 0) throw Error("an empty name in '" + line + "'");
    const name = rest.slice(0, at);
    if (list.indexOf(name) >= 0) throw Error(name + " is named twice");
    list.push(name);
    rest = rest.slice(at + 1);
  }
  return list;
}

const votes = [];
let invalid = 0;
for (let line = readline(); line !== null; line = readline()) {
  try {
    votes.push(names(line));
  } catch (e) {
    invalid++;
    console.log("not counted: " + e.message);
  }
}
console.log(votes.length + " votes, " + invalid + " invalid");

const out = [];
for (let round = 1; ; round++) {
  const count = {};
  let valid = 0;
  for (const vote of votes) {
    for (const name of vote) if (count[name] === undefined && out.indexOf(name) < 0) count[name] = 0;
    for (const name of vote) {
      if (out.indexOf(name) >= 0) continue;
      count[name]++;
      valid++;
      break;
    }
  }
  let best = null, worst = null, text = "";
  for (const name of Object.keys(count)) {
    text += " " + name + "=" + count[name];
    if (best === null || count[name] > count[best]) best = name;
    if (worst === null || count[name] <= count[worst]) worst = name;
  }
  console.log("round " + round + ":" + text);
  if (best === null) { console.log("nobody is left"); break; }
  if (2 * count[best] > valid) {
    console.log(best + " is elected with " + count[best] + " of " + valid);
    break;
  }
  console.log("  " + worst + " goes out");
  out.push(worst);
}

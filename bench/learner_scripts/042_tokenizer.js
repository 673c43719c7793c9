// Cuts a text into numbers, names, texts and signs, with their places.
const isDigit = c => c >= "0" && c <= "9";
const isLetter = c => c >= "a" && c <= "z" || c >= "A" && c <= "Z" || c === "_";

function tokenize(text) {
  const tokens = [];
  let i = 0;
  const run = test => {
    const start = i;
    while (i < text.length && test(text[i])) i++;
    return text.slice(start, i);
  };
  while (i < text.length) {
    const at = i, c = text[i];
    if (c === " " || c === "\t" || c === "\n") { i++; continue; }
    if (isDigit(c)) tokens.push({ kind: "number", text: run(isDigit), at });
    else if (isLetter(c)) tokens.push({ kind: "name", text: run(c => isLetter(c) || isDigit(c)), at });
    else if (c === "\"") {
      i++;
      const inside = run(c => c !== "\"");
      if (i === text.length) throw Error("a text that begins at " + at + " doesn't end");
      i++;
      tokens.push({ kind: "text", text: inside, at });
    } else {
      const two = text.slice(i, i + 2);
      const sign = ["==", "<=", ">=", "&&"].indexOf(two) >= 0 ? two : c;
      i += sign.length;
      tokens.push({ kind: "sign", text: sign, at });
    }
  }
  return tokens;
}

for (const source of ["x1 = 40+2;", "if (a<=b && s == \"it's\")\n\treturn f(\"\")", "   ", "y \"open"]) {
  try {
    const list = tokenize(source);
    console.log(list.length + " tokens");
    for (const t of list) console.log("  " + t.at, t.kind, "[" + t.text + "]");
  } catch (e) {
    console.log("error: " + e.message);
  }
}

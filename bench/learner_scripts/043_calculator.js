// A calculator by recursive descent: + - * / % and ^, whole numbers, one expression a line.
function calculate(line) {
  let i = 0;
  function peek() {
    while (line[i] === " ") i++;
    return i < line.length ? line[i] : "";
  }
  function take(c) {
    if (peek() !== c) return false;
    i++;
    return true;
  }
  function sum() {
    let value = product();
    for (;;) {
      if (take("+")) value += product();
      else if (take("-")) value -= product();
      else return value;
    }
  }
  function product() {
    let value = power();
    for (;;) {
      if (take("*")) value *= power();
      else if (peek() === "/" || peek() === "%") {
        const c = line[i++], right = power();
        if (right === 0) throw RangeError("division by zero");
        value = c === "%" ? value % right : (value - value % right) / right;
      } else return value;
    }
  }
  function power() {
    const base = atom();
    if (!take("^")) return base;
    let value = 1;
    for (let n = power(); n > 0; n--) value *= base;
    return value;
  }
  function atom() {
    if (take("-")) return 0 - atom();
    if (take("(")) {
      const value = sum();
      if (!take(")")) throw Error("')' is missing at " + i);
      return value;
    }
    let n = null;
    for (let c = peek(); c >= "0" && c <= "9"; c = line[++i] || "") n = (n || 0) * 10 + c.charCodeAt(0) - 48;
    if (n === null) throw Error("a number is missing at " + i);
    return n;
  }
  const value = sum();
  if (peek() !== "") throw Error("unexpected '" + peek() + "' at " + i);
  return value;
}

for (let line = readline(); line !== null; line = readline()) {
  try { console.log(line + " = " + calculate(line)); }
  catch (e) { console.log(line + " : " + e.name + ", " + e.message); }
}

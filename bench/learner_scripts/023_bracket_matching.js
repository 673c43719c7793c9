// A stack tells whether brackets match, and where they don't.
const pairs = { ")": "(", "]": "[", "}": "{" };

function check(text) {
  const stack = [];
  for (let i = 0; i < text.length; i++) {
    const c = text[i];
    if ("([{".indexOf(c) >= 0) {
      stack.push({ c: c, at: i });
    } else if (pairs[c] !== undefined) {
      const open = stack.pop();
      if (open === undefined) return "nothing opens the " + c + " at " + i;
      if (open.c !== pairs[c]) return "the " + open.c + " at " + open.at + " is closed by " + c + " at " + i;
    }
  }
  if (stack.length > 0) return "the " + stack[stack.length - 1].c + " at " + stack.pop().at + " stays open";
  return "fine";
}

const texts = [
  "", "()", "f(a[1], { b: (2) })", "(]", "((a)", "a)", "{[()()]}", "{[(])}", "no brackets",
  "if (x) { y[0] = '(' }",
];
for (const text of texts) console.log("<" + text + "> " + check(text));

// Turning words and sentences around.
function reverse(text) {
  let result = "";
  for (let i = text.length - 1; i >= 0; i--) result += text[i];
  return result;
}

function split(text, separator) {
  const parts = [];
  for (;;) {
    const at = text.indexOf(separator);
    if (at < 0) break;
    parts.push(text.slice(0, at));
    text = text.slice(at + separator.length);
  }
  parts.push(text);
  return parts;
}

function reverseWords(text) {
  const words = split(text, " "), back = [];
  while (words.length > 0) back.push(words.pop());
  return back.join(" ");
}

function eachReversed(text) {
  const words = split(text, " ");
  for (let i = 0; i < words.length; i++) words[i] = reverse(words[i]);
  return words.join(" ");
}

for (const text of ["stressed", "the quick brown fox", "  two  spaces ", "", "été"]) {
  console.log("[" + text + "] [" + reverse(text) + "] [" + reverseWords(text) + "] [" + eachReversed(text) + "]");
}
console.log(split("a, b, c", ", ").join("|"), split("", ",").length, split("xx", "x").length);
console.log(reverse(reverse("twice")) === "twice");

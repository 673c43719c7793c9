// Run-length coding and back, and an error for what is no code.
function encode(text) {
  let code = "";
  let i = 0;
  while (i < text.length) {
    let j = i;
    while (j < text.length && text[j] === text[i]) j++;
    code += (j - i > 1 ? j - i : "") + text[i];
    i = j;
  }
  return code;
}

function decode(code) {
  let text = "", n = 0, digits = 0;
  for (let i = 0; i < code.length; i++) {
    const d = "0123456789".indexOf(code[i]);
    if (d >= 0) {
      n = n * 10 + d;
      digits++;
      continue;
    }
    if (digits === 0) n = 1;
    while (n > 0) {
      text += code[i];
      n--;
    }
    digits = 0;
  }
  if (digits > 0) throw Error("a number at the end: " + n);
  return text;
}

for (const text of ["WWWWWWWWWWWWBWWWWWWWWWWWWBBB", "abc", "", "aabbccddee", "    x", "zzzzzzzzzzzzzzzzzzzz"]) {
  const code = encode(text);
  console.log("'" + text + "' -> '" + code + "' " + text.length + ":" + code.length, decode(code) === text);
}
console.log(decode("3a2b1c0d"));
try { decode("4x10"); } catch (e) { console.log(e.message); }

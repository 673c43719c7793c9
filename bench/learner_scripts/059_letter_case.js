// Upper and lower case by the codes of letters, titles, and the styles of names.
const codes = { A: 65, Z: 90, a: 97, z: 122 };
const table = "ABCDEFGHIJKLMNOPQRSTUVWXYZabcdefghijklmnopqrstuvwxyz";

function change(c, first, last, shift) {
  const code = c.charCodeAt(0);
  return code >= first && code <= last ? table[code - first + shift] : c;
}
function mapText(text, f) {
  let s = "";
  for (let i = 0; i < text.length; i++) s += f(text[i], i);
  return s;
}
const upper = text => mapText(text, c => change(c, codes.a, codes.z, 0));
const lower = text => mapText(text, c => change(c, codes.A, codes.Z, 26));
const title = text => mapText(text, (c, i) => i === 0 || text[i - 1] === " " ? upper(c) : lower(c));
const toggle = text => mapText(text, c => upper(c) === c ? lower(c) : upper(c));

const text = "the Ring AND the 7 dwarfs";
console.log(upper(text));
console.log(lower(text));
console.log(title(text));
console.log(toggle(text));

function camel(name) {
  let next = false;
  return mapText(name, c => {
    if (c === "_") { next = true; return ""; }
    const r = next ? upper(c) : c;
    next = false;
    return r;
  });
}
const snake = name => mapText(name, c => c !== lower(c) ? "_" + lower(c) : c);
console.log(camel("number_of_lines"), snake("numberOfLines"), snake(camel("a_b_c")) === "a_b_c");
console.log(upper("").length, lower("ÄÖ") === "ÄÖ");

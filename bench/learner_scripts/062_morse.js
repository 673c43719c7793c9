// Morse code by two objects, the second made from the first.
const code = {
  a: ".-", b: "-...", c: "-.-.", d: "-..", e: ".", f: "..-.", g: "--.", h: "....", i: "..", j: ".---",
  k: "-.-", l: ".-..", m: "--", n: "-.", o: "---", p: ".--.", q: "--.-", r: ".-.", s: "...", t: "-",
  u: "..-", v: "...-", w: ".--", x: "-..-", y: "-.--", z: "--..", 1: ".----", 2: "..---", 0: "-----",
};
const letter = {};
for (const c of Object.keys(code)) letter[code[c]] = c;

function encode(text) {
  const out = [];
  for (let i = 0; i < text.length; i++) {
    if (text[i] === " ") out.push("/");
    else if (code[text[i]] === undefined) throw Error("no code for '" + text[i] + "'");
    else out.push(code[text[i]]);
  }
  return out.join(" ");
}

function decode(signal) {
  let text = "", sign = "";
  for (let i = 0; i <= signal.length; i++) {
    const c = i < signal.length ? signal[i] : " ";
    if (c === "/") text += " ";
    else if (c !== " ") sign += c;
    else if (sign !== "") {
      text += letter[sign] || "?";
      sign = "";
    }
  }
  return text;
}

const message = "sos send 20 jars of quince jam";
const signal = encode(message);
console.log(signal);
console.log(decode(signal) === message, decode("... .-.-.-. ..."));
console.log("order of keys: " + Object.keys(code).join("").slice(0, 8));
let dots = 0;
for (let i = 0; i < signal.length; i++) dots += signal[i] === "." ? 1 : 0;
console.log("dots", dots);
try { encode("3"); } catch (e) { console.log(e.message); }

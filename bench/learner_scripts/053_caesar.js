// Caesar's cipher: encoding, decoding, and guessing the key by counting the letter e.
const small = "abcdefghijklmnopqrstuvwxyz";
const large = "ABCDEFGHIJKLMNOPQRSTUVWXYZ";

function shift(text, key) {
  key = (key % 26 + 26) % 26;
  let result = "";
  for (let i = 0; i < text.length; i++) {
    const c = text[i];
    let alphabet = "";
    if (small.indexOf(c) !== -1) alphabet = small;
    else if (large.indexOf(c) !== -1) alphabet = large;
    result += alphabet === "" ? c : alphabet[(alphabet.indexOf(c) + key) % 26];
  }
  return result;
}

function guess(text) {
  let best = 0, most = -1;
  for (let key = 0; key < 26; key++) {
    const plain = shift(text, -key);
    let count = 0;
    for (let i = 0; i < plain.length; i++) if (plain[i] === "e") count++;
    if (count > most) {
      most = count;
      best = key;
    }
  }
  return best;
}

const secret = shift("Meet me here, where the seven elder trees end. Zebra!", 11);
console.log(secret);
const key = guess(secret);
console.log("key " + key + ": " + shift(secret, -key));
console.log(shift(shift("Uryyb, Jbeyq!", 13), 26));
console.log(shift("abcxyz", 3), shift("abcxyz", -3), shift("abcxyz", 260), shift("123 ?!", 9));

// Palindromes: of letters only, of numbers, and the longest one in a text.
const upper = "ABCDEFGHIJKLMNOPQRSTUVWXYZ", lower = "abcdefghijklmnopqrstuvwxyz";

function letters(text) {
  let result = "";
  for (let i = 0; i < text.length; i++) {
    const at = upper.indexOf(text[i]);
    if (at >= 0) result += lower[at];
    else if (lower.indexOf(text[i]) >= 0) result += text[i];
  }
  return result;
}

const isPalindrome = text => text.length < 2 ||
  text[0] === text[text.length - 1] && isPalindrome(text.slice(1, -1));

for (const text of ["A man, a plan, a canal: Panama!", "Never odd or even", "Hello", "", "x", "ab"]) {
  console.log(isPalindrome(letters(text)) ? "yes" : "no ", letters(text));
}

function longest(text) {
  let best = "";
  for (let middle = 0; middle < text.length; middle++) {
    for (let even = 0; even < 2; even++) {
      let i = middle, j = middle + even;
      while (i >= 0 && j < text.length && text[i] === text[j]) { i--; j++; }
      if (j - i - 1 > best.length) best = text.slice(i + 1, j);
    }
  }
  return best;
}
console.log(longest("forgeeksskeegfor"), longest("bananas"), longest("abc"), longest("").length);

let found = "";
for (let n = 90; n < 250; n++) {
  if (isPalindrome(String(n))) found += n + " ";
}
console.log(found);

// Check digits: cards by doubling each second digit, and books by weights.
const digits = text => {
  const list = [];
  for (let i = 0; i < text.length; i++) {
    const d = "0123456789".indexOf(text[i]);
    if (d >= 0) list.push(d);
    else if (text[i] === "X") list.push(10);
    else if (text[i] !== " " && text[i] !== "-") throw TypeError("a strange sign: " + text[i]);
  }
  return list;
};

function isCard(text) {
  const list = digits(text);
  let sum = 0, isDouble = false;
  for (let i = list.length - 1; i >= 0; i--) {
    const d = isDouble ? list[i] * 2 : list[i];
    sum += d > 9 ? d - 9 : d;
    isDouble = !isDouble;
  }
  return list.length > 1 && sum % 10 === 0;
}

function isBook(text) {
  const list = digits(text);
  let sum = 0;
  if (list.length === 10) for (let i = 0; i < 10; i++) sum += list[i] * (10 - i);
  else if (list.length === 13) for (let i = 0; i < 13; i++) sum += list[i] * (i % 2 === 0 ? 1 : 3);
  else return false;
  return sum % (list.length === 10 ? 11 : 10) === 0;
}

for (const card of ["4539 1488 0343 6467", "8273 1232 7352 0569", "0", "0000 0", "49927398716", "12a4"]) {
  try {
    console.log("card " + card + ": " + (isCard(card) ? "good" : "bad"));
  } catch (e) {
    console.log("card " + card + ": " + e.message);
  } finally {
    if (card.length < 3) console.log("  (too short to be sure)");
  }
}
for (const book of ["0-306-40615-2", "0-306-40615-3", "978-0-306-40615-7", "0-8044-2957-X", "12"]) {
  console.log("book " + book + ":", isBook(book));
}

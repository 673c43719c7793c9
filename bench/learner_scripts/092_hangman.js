// Hangman over the lines of the input: first a word, then letters; then another word.
const allowed = 6;

function play(word) {
  const guessed = {};
  let wrong = 0;
  const shown = () => {
    let text = "";
    for (let i = 0; i < word.length; i++) text += guessed[word[i]] ? word[i] : "_";
    return text;
  };
  while (wrong < allowed && shown() !== word) {
    const letter = readline();
    if (letter === null) return "stopped at " + shown();
    if (letter.length !== 1 || letter < "a" || letter > "z") {
      console.log("  one letter, please, not '" + letter + "'");
      continue;
    }
    if (guessed[letter]) {
      console.log("  " + letter + " was guessed before");
      continue;
    }
    guessed[letter] = true;
    let times = 0;
    for (let i = 0; i < word.length; i++) times += word[i] === letter ? 1 : 0;
    if (times === 0) wrong++;
    let man = "";
    for (let i = 0; i < wrong; i++) man += "O|/\\/\\"[i];
    console.log("  " + letter + ": " + shown() + (times > 1 ? " (" + times + " times)" : "") + " " + man);
  }
  return shown() === word ? "won with " + wrong + " wrong" : "lost, it was " + word;
}

let word, games = 0;
while ((word = readline()) !== null) {
  games++;
  console.log("game " + games + ", " + word.length + " letters");
  console.log(play(word));
}
console.log(games + " games");

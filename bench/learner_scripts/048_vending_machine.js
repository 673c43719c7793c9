// A vending machine over the lines of the input.
const goods = { tea: { price: 120, left: 5 }, cola: { price: 150, left: 2 } };
const coins = [200, 100, 50, 20, 10];
let credit = 0, income = 0;

function change(sum) {
  const given = [];
  for (const c of coins) {
    while (sum >= c) {
      given.push(c);
      sum -= c;
    }
  }
  return given.length === 0 ? "nothing" : given.join(" + ");
}

const number = text => {
  let n = 0;
  for (let i = 0; i < text.length; i++) n = n * 10 + "0123456789".indexOf(text[i]);
  return n;
};

const commands = {
  coin(value) {
    const n = number(value);
    if (coins.indexOf(n) < 0) throw Error("no such coin: " + n);
    credit += n;
    return "credit " + credit;
  },
  choose(name) {
    const it = goods[name];
    if (!it || it.left === 0) throw Error(name + " is sold out");
    if (credit < it.price) throw Error(it.price - credit + " more, please");
    it.left--;
    credit -= it.price;
    income += it.price;
    return "here is your " + name + ", credit " + credit;
  },
  back() {
    const given = change(credit);
    credit = 0;
    return "you get " + given;
  },
};

for (let line; (line = readline()) !== null;) {
  const space = line.indexOf(" ");
  const name = space < 0 ? line : line.slice(0, space);
  try {
    if (!commands[name]) throw TypeError("unknown command " + name);
    console.log("> " + line + "\n" + commands[name](line.slice(space + 1)));
  } catch (e) {
    console.log("> " + line + "\n" + (e.name === "Error" ? "" : "!! ") + e.message);
  }
}
console.log("income " + income + ", in the machine: " + credit);

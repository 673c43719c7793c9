// A bank account whose errors are thrown and caught, with finally for the book.
function makeAccount(owner) {
  let balance = 0, locked = false;
  const book = [];
  function change(amount, what) {
    if (typeof amount !== "number") throw TypeError("an amount is a number, not a " + typeof amount);
    if (amount <= 0) throw RangeError("an amount is above 0");
    if (locked) throw Error("the account is locked");
    const sum = what === "in" ? balance + amount : balance - amount;
    if (sum < 0) {
      const e = Error(owner + " has only " + balance);
      e.missing = -sum;
      throw e;
    }
    balance = sum;
  }
  function entry(what) {
    return amount => {
      let result = "refused";
      try {
        change(amount, what);
        result = "done";
        return balance;
      } finally {
        book.push(what + " " + String(amount) + " " + result);
      }
    };
  }
  return { owner, book, put: entry("in"), take: entry("out"), lock() { locked = !locked; }, balance: () => balance };
}

function transfer(from, to, amount) {
  from.take(amount);
  try {
    to.put(amount);
  } catch (e) {
    from.put(amount);
    console.log("  given back: " + e.message);
    throw e;
  }
}

const ann = makeAccount("Ann"), bob = makeAccount("Bob");
console.log(ann.put(100), ann.take(30));
const tries = [() => ann.take(71), () => ann.put(-5), () => ann.put("10"), () => transfer(ann, bob, 50),
  () => { bob.lock(); transfer(ann, bob, 20); }, () => transfer(bob, ann, 1)];
for (const f of tries) {
  try {
    f();
    console.log("fine: " + ann.balance() + " and " + bob.balance());
  } catch (e) {
    console.log(e.name + ": " + e.message + (e.missing === undefined ? "" : ", " + e.missing + " missing"));
  }
}
console.log(ann.book.join("; "));
console.log(bob.book.join("; "));

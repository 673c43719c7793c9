// Iterators by closures: an iterator is a function that gives the next value, or null at its end.
const range = (from, to) => () => from < to ? from++ : null;

function filter(next, test) {
  return () => {
    let x = next();
    while (x !== null && !test(x)) x = next();
    return x;
  };
}

function map(next, f) {
  return () => {
    const x = next();
    return x === null ? null : f(x);
  };
}

function take(next, n) {
  return () => n-- > 0 ? next() : null;
}

function zip(a, b) {
  return () => {
    const x = a(), y = b();
    return x === null || y === null ? null : x + "-" + y;
  };
}

function collect(next) {
  const all = [];
  for (let x = next(); x !== null; x = next()) all.push(x);
  return all;
}

const naturals = () => range(1, 9007199254740991);
console.log(collect(range(3, 8)).join());
console.log(collect(take(filter(naturals(), n => n % 7 === 0), 5)).join());
console.log(collect(take(map(naturals(), n => n * n), 6)).join());
console.log(collect(zip(range(0, 3), take(naturals(), 10))).join(" "));
console.log(collect(range(5, 5)).length);
const shared = naturals();
console.log(collect(take(shared, 2)).join(), collect(take(shared, 2)).join());

// Endless lists: a pair of a head and a function that makes the tail, which is made only once.
function cons(head, makeTail) {
  let tail = null;
  return {
    head,
    tail() {
      if (tail === null) {
        made++;
        tail = makeTail();
      }
      return tail;
    },
  };
}
let made = 0;

const from = n => cons(n, () => from(n + 1));
const map = (s, f) => cons(f(s.head), () => map(s.tail(), f));
const add = (a, b) => cons(a.head + b.head, () => add(a.tail(), b.tail()));
function keep(s, test) {
  while (!test(s.head)) s = s.tail();
  return cons(s.head, () => keep(s.tail(), test));
}
function first(n, s) {
  const list = [];
  while (n > 0) {
    list.push(s.head);
    if (--n > 0) s = s.tail();
  }
  return list.join(" ");
}

console.log(first(8, from(5)));
console.log(first(8, map(from(1), n => n * n * n)));
console.log(first(6, keep(from(1), n => n % 3 === 0 && n % 4 !== 0)));
const fibs = cons(0, () => cons(1, () => add(fibs, fibs.tail())));
console.log(first(20, fibs));
const before = made;
console.log(first(20, fibs), "made anew:", made - before);

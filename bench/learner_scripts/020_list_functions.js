// The list functions that one misses, written with loops.
const each = (list, f) => { for (let i = 0; i < list.length; i++) f(list[i], i); };

function map(list, f) {
  const result = [];
  each(list, (x, i) => result.push(f(x, i)));
  return result;
}
function filter(list, test) {
  const result = [];
  each(list, x => test(x) && result.push(x));
  return result;
}
function reduce(list, f, start) {
  each(list, x => { start = f(start, x); });
  return start;
}
const some = (list, test) => filter(list, test).length > 0;
const every = (list, test) => !some(list, x => !test(x));
const reverse = list => reduce(list, (all, x) => concat([x], all), []);
function concat(a, b) {
  const all = a.slice();
  each(b, x => all.push(x));
  return all;
}

const basket = [3, 8, 1, 12, 7];
console.log(map(basket, n => n * 10).join());
console.log(map(basket, (n, i) => i + "=" + n).join("; "));
console.log(filter(basket, n => n % 2 === 1).join());
console.log(reduce(basket, (a, b) => a + b, 0), reduce(basket, (a, b) => a > b ? a : b, basket[0]));
console.log(some(basket, n => n > 10), every(basket, n => n > 10), every([], n => false));
console.log(reverse(basket).join(), "from", basket.join());

// Functions that make functions: composing, piping, repeating.
const compose = (f, g) => x => f(g(x));

function pipe(functions) {
  return x => {
    for (const f of functions) x = f(x);
    return x;
  };
}

function times(n, f) {
  return n === 0 ? x => x : compose(f, times(n - 1, f));
}

const double = n => n * 2;
const inc = n => n + 1;
const square = n => n * n;
const brackets = s => "(" + s + ")";

console.log(compose(double, inc)(5), compose(inc, double)(5));
console.log(pipe([inc, square, double, String, brackets, brackets])(4));
console.log(times(10, double)(1), times(0, double)(7), times(3, brackets)("x"));
console.log(pipe([])("nothing changes"));

const flip = f => (a, b) => f(b, a);
const minus = (a, b) => a - b;
console.log(minus(10, 3), flip(minus)(10, 3), flip(flip(minus))(10, 3));
console.log(compose.length, flip(minus).length, double.name);

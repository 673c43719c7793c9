// Counters that keep their number in a closure.
function makeCounter(start, step) {
  let n = start;
  return {
    up: () => n += step,
    down() { n -= step; return n; },
    peek: function () { return n; },
    reset() { n = start; },
  };
}

const ones = makeCounter(0, 1);
const tens = makeCounter(100, 10);
ones.up(); ones.up(); ones.up();
tens.down();
console.log(ones.peek(), tens.peek());
console.log(ones.up() + tens.up());
ones.reset();
console.log("after reset", ones.peek(), tens.peek());

const once = (() => {
  let calls = 0;
  return function () {
    calls++;
    return calls === 1 ? "first call" : "call number " + calls;
  };
})();
console.log(once());
console.log(once());
console.log(typeof ones.n, typeof ones.up);

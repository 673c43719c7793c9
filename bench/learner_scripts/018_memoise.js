// Keeps the results of a function of one argument, and counts what that spares.
function memoise(f) {
  const known = {};
  let hits = 0;
  const g = n => {
    if (known[n] !== undefined) {
      hits++;
      return known[n];
    }
    const value = f(n);
    known[n] = value;
    return value;
  };
  return { g, hits: () => hits, size: () => Object.keys(known).length };
}

let calls = 0;
function slow(n) {
  calls++;
  return n < 2 ? n : slow(n - 1) + slow(n - 2);
}
console.log("slow:", slow(15), "with", calls, "calls");

calls = 0;
const fast = memoise(n => {
  calls++;
  return n < 2 ? n : fast.g(n - 1) + fast.g(n - 2);
});
console.log("fast:", fast.g(15), "with", calls, "calls");
console.log("a long way:", fast.g(78));
console.log("hits", fast.hits(), "kept", fast.size());

const lengths = memoise(s => s.length);
lengths.g("word"); lengths.g("word"); lengths.g("other");
console.log(lengths.hits(), lengths.size());

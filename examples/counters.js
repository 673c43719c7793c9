function counter(start) {
  let n = start;
  return () => n++;
}
const next = counter(7);
next();
try {
  if (next() === 8) throw "eight";
} catch (e) { console.log("caught", e); }
console.log(next());

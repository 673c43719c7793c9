let g = 10;
const shop = {
  rate: 3,
  price(n) {
    const seen = [n];
    for (let i = 0; i < 1; i++) {
      let part = n * this.rate;
      debugger;
      seen.push(part);
    }
    return seen.join();
  },
};
function outer(g) {
  const inner = (k) => shop.price(k + g);
  return inner(1);
}
console.log(outer(2));
try { throw Error("e"); } catch (err) { let c = 1; debugger; }

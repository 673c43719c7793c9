const prices = [4, 9, 2];
let total = 0;
function add(price) {
  total += price;
  return total;
}
for (const p of prices) add(p);
console.log("total", total);

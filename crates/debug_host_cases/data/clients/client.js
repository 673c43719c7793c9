let total = 0;
function add(n) {
  total = total + n;
  return total;
}
console.log(add(2));

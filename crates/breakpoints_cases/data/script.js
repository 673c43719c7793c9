let total = 0;
function add(a, b) {
  const sum = a + b;
  return sum;
}
for (let i = 0; i < 3; i++) {
  total = add(total, i); total = add(total, add(i, 1));
}
if (total > 4) {
  console.log(total);
} else {
  console.log(add(1, 2));
}

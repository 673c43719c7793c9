let n = 0;
while (n < 4) {
  n = n + 1;
}
console.log(n);

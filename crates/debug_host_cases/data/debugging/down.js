function down(n) {
  if (n > 0) down(n - 1);
  return n;
}
down(2);

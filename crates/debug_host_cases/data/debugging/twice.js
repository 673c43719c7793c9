function f() {
  return 1;
}
f(f());
2;

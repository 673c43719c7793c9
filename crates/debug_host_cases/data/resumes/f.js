function f() {
  return 1;
}
f();
console.log(2);

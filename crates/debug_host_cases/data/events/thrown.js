function f() {
  throw {code: 7};
}
console.log(1);
f();

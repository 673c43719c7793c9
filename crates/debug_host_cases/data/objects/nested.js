function f(p) {
  function g() {
    try { throw 1; } catch (e) {
      let b = e;
      debugger;
    }
  }
  g();
}
f(5);

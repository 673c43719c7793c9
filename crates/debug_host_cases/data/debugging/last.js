function f() {
  try { throw 1; } finally { }
}
f();

function f() {
  try { throw "t"; }
  finally { 2; }
}
f();

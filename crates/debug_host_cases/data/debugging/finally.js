function f() {
  try { throw 1; } finally { }
}
try { f(); } catch (e) { }

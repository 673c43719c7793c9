function outer(p) {
  return (x) => { debugger; return p + x; };
}
const inner = outer(1);
const named = function me(k) { debugger; return k; };
for (let i = 0; i < 1; i++) { let j = i; inner(2); }
named(3);
const host = {m() { debugger; }};
host.m();
try { throw 1; } catch { let c = 2; debugger; }

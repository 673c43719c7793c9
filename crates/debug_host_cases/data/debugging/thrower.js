function f() { throw 1; }
try { f(); }
catch { 2; }

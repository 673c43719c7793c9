function f() { try { return 1; } finally { console.log("x"); } }
console.log(f());

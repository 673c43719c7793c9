let n = 0;
const list = [1];
const o = {p: 1};
const tell = (x) => { n = n + x; return n; };
const safe = () => { try { n = 9; } catch (e) { return "caught"; } finally { return "kept"; } };
const count = () => { let k = 0; for (let i = 0; i < 3; i++) k += i; return k; };
console.log(n, list.join(), Object.keys(o).join(), readline());

const shop = {name: "it's", sizes: [2, [3, null], {}], open: true, owner: undefined, area() { return 6; }};
const filled = (n) => { const a = []; for (let i = 0; i < n; i++) a.push(0); return a; };
const deep = (n, part) => { let a = part; for (let i = 0; i < n; i++) a = [a]; return a; };
const wide = (n) => { const o = {}; for (let i = 0; i < n; i++) o[i] = undefined; return o; };
debugger;

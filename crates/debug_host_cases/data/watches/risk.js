function risky(x) { if (x) { const by = x; throw Error("no" + by); } return 1; }
try { risky(2); } catch (e) { console.log(e.message); }

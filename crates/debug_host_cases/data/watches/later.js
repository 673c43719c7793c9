{ debugger; let a = 1; }
for (let x of (() => { debugger; return []; })()) x;

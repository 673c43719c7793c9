let l = readline();
while (l !== null) { console.log(l); l = readline(); }

let n = 1;
debugger;

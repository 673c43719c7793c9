debugger;
1;

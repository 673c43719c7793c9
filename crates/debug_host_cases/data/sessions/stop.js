console.log(1);
debugger;

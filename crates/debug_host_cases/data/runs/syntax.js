let a = 1;

let = 2;

console.log();
console.log(1, "a%\n\"\uD800", null, undefined, true);
console.log([1], {a: 1}, console.log, TypeError("bad"), () => 1);

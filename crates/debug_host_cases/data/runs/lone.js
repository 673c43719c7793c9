console.log("a\u{D800}b");

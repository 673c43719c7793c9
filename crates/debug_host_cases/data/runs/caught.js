try { throw "x"; } catch (e) { console.log("caught", e); }

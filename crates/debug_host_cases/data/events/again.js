try { throw 1; } catch (e) { throw e; }

try {
  try { throw 1; } finally { 2; }
} catch (e) { 3; }

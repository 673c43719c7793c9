let n = 0;
const base = {p: 1};

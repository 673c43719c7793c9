let n = 4;

let c = 3;

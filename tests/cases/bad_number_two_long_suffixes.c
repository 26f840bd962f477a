long x = 1 + 1LL;

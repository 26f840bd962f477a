int f(a, 1);

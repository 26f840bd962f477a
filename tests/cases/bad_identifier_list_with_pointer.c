int f(a, *b);

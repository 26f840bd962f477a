int f(a, int b);

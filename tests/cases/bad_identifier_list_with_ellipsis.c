int f(a, ...);

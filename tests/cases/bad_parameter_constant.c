int f(1);

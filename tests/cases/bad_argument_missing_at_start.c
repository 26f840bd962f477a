int x = f(, a);

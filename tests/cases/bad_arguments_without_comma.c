int x = f(a b);

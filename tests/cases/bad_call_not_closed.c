int x = f(a;

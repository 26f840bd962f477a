int x = f(a,

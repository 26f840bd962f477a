int x = f(a, );

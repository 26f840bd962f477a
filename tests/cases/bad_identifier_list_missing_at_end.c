int f(a, );

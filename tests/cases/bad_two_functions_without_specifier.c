f(a), g(b);

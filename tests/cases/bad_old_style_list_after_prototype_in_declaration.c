int f(a), g(b) int b; { }

int f(a) int a, g(b) { }

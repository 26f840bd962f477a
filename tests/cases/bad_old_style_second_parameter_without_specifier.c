int f(a, b) int a; b; { }

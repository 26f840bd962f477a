int f(a) a; { }

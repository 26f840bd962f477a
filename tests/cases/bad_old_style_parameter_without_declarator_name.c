int f(a) int *; { }

int f(int a,

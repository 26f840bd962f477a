int f(int a, T b);

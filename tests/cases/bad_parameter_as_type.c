int f(int T, T x);

int f(int (*g)(int T), T x);

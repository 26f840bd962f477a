typedef int T; int f(a, T) { return a; }

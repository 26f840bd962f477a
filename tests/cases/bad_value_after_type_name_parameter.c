typedef int T; int f(T, a) { return a; }

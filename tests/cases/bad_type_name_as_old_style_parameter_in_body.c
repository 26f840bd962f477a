typedef int T; int f(a) int T; { T x; }

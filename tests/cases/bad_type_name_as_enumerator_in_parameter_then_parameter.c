typedef int T; int f(enum { T } a, T x);

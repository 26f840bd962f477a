typedef int T; int f(int (*T)(T), T x);

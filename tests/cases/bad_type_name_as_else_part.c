typedef int T; void f(void) { if (a) ; else T x; }

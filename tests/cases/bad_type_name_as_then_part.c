typedef int T; void f(void) { if (a) T x; }

typedef int T; void f(void) { while (a) T x; }

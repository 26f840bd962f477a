typedef int T; void f(void) { l: T x; }

typedef int T; void f(void) { T (x) + 1; }

typedef int T; void f(void) { int T; T * x; }

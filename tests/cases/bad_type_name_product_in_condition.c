typedef int T; void f(void) { if (T * x) ; }

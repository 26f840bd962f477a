typedef int T; void f(void) { for (T x;;) ; }

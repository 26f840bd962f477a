typedef int T; void f(void) { while (T) ; }

typedef int T; void f(void) { case 1: T x; }

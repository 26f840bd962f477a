typedef int T; void f(void) { g(); T; }

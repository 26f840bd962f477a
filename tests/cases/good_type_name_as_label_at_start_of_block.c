typedef int T; void f(void) { T : g(); }

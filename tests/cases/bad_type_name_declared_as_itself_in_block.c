typedef int T; void f(void) { T T; T x; }

void f(void) { goto l, m; }

void f(void) { return a b; }

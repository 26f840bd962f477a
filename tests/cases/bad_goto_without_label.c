void f(void) { goto; }

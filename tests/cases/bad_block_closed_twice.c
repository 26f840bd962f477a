void f(void) { } }

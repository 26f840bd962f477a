void f(void) { x() }

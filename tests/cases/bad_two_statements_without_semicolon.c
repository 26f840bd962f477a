void f(void) { x() y(); }

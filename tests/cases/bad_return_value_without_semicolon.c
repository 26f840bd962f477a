void f(void) { return a }

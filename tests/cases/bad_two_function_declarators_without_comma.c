int f(void) g(void) { }

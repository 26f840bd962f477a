int x, f(void) { }

int f(void) = g() { }

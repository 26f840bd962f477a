int f(void) { };

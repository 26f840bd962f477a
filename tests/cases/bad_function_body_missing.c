int f(void) }

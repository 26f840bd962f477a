int f(void) x;

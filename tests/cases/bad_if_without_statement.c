void f(void) { if (a) }

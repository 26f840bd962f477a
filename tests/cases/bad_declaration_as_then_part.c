void f(void) { if (a) int y; }

void f(void) { ; int y; }

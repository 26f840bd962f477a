void f(void) { t x; }

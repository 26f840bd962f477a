void f(void) { goto *p; }

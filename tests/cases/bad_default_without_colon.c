void f(void) { default; }

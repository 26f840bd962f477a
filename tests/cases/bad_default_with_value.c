void f(void) { default 1: x(); }

void f(void) { = }

void f(void) { ] }

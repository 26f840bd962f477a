void f(void) { l: }

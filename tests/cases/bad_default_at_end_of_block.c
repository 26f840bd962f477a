void f(void) { default: }

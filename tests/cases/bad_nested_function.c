void f(void) { int g(void) { } }

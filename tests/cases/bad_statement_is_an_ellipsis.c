void f(void) { ... }

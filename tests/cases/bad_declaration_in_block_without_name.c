void f(void) { int *; }

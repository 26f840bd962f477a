void f(void) { x(); typedef int t; }

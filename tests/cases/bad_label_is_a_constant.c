void f(void) { 1 : x(); }

void f(void) { : x(); }

void f(void) { else x(); }

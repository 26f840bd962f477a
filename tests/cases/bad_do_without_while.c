void f(void) { do x(); }

void f(void) { do x(); while (); }

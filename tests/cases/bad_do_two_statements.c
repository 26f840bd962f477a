void f(void) { do x(); y(); while (a); }

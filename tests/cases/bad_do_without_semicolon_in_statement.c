void f(void) { do x() while (a); }

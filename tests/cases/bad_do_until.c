void f(void) { do x(); until (a); }

void f(void) { if (a) { }; else x(); }

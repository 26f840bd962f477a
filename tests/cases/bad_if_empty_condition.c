void f(void) { if () b(); }

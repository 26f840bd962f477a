void f(void) { throw x; }

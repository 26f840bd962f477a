void f(void) { x(); int y; }

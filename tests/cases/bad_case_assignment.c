void f(void) { case a = b: x(); }

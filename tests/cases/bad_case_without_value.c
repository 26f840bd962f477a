void f(void) { case : x(); }

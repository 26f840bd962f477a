void f(void) { (a) : x(); }

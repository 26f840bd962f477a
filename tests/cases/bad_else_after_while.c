void f(void) { while (a) x(); else y(); }

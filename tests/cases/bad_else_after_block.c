void f(void) { { if (a) x(); } else y(); }

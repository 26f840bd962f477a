void f(void) { if (a) if (b) x(); else y(); else z(); }

void f(void) { if (a) if (b) if (c) x(); else y(); else z(); }

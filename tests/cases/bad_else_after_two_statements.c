void f(void) { if (a) x(); y(); else z(); }

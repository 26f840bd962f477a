void f(void) { for (a) x(); }

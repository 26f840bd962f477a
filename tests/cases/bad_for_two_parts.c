void f(void) { for (a; b) x(); }

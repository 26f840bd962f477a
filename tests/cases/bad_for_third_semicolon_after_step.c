void f(void) { for (a; b; c;) x(); }

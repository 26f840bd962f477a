void f(void) { if (a) ; else }

void f(void) { forever g(); }

void f(void) { continue l; }

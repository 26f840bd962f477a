void f(void) { case a ? b : c; }

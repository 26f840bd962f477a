void f(void) { goto default; }

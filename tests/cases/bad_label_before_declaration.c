void f(void) { l: int x; }

void f(void) { return int; }

void f(void) { break 1; }

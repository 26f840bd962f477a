void f(void) { default: static int x; }

void f(void) { , }

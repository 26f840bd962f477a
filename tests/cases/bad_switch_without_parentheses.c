void f(void) { switch { } }

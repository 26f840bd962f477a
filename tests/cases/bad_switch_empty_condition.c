void f(void) { switch () { } }

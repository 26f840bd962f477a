void f(void) { while a x(); }

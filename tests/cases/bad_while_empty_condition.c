void f(void) { while () x(); }

void f(void) { break }

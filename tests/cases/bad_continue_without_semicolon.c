void f(void) { continue }

void f(void) { return }

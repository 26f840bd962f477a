void f(void) {
    x();

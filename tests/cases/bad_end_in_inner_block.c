void f(void) {
    {
        x();
    }

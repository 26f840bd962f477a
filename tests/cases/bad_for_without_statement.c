void f(void) { for (;;) }

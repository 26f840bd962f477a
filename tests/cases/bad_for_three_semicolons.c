void f(void) { for (;;;) x(); }

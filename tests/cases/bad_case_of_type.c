void f(void) { case int: x(); }

void f(void) { case 1 ... 2: x(); }

void f(void) { case 1: int x; }

void f(void) { while (a) const int y; }

void f(void) { if (int a = b) c(); }

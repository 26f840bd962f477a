void f(void) { int a; l: ; int y; }

void f(void) { T: ; } T x;

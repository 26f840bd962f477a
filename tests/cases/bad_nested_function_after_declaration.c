void f(void) { int x; int g(a) int a; { } }

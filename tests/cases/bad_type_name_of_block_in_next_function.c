void f(void) { typedef int T; } void g(void) { T x; }

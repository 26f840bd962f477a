void f(void) { typedef int T; T x; } T y;

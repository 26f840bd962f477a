void f(void) { typedef int T; int T; T x; }

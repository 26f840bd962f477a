typedef int T; void f(void) { int T(void); T x; }

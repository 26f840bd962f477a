typedef int T; int T(void) { T x; }

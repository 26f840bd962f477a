typedef int T; int T(void) { return 1; } T x;

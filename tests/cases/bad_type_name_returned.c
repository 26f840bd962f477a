typedef int T; T f(void) { return T; }

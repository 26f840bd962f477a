typedef int T; T f(void) x;

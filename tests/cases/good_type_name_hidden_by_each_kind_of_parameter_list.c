typedef int T, U;
int f(T U, int x[sizeof (U)]);
int g(T (*U)(T U), T x, int y[sizeof (U)]);
int h(U T) { U x; x = T; return (U) T; }
int i(T, U) T; { T T; U x; return T; }
T j(U (*)(T U), U x);

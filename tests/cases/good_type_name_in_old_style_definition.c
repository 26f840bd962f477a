typedef int T;
T f(x, y) T x; T *y; { T z; return (T) *y; }
T *g(x) T (*x)(T); { return 0; }
T (*h(x))(T) T x; { return 0; }
int i(T) { return 1; }
int j(T) T x; { return x; }

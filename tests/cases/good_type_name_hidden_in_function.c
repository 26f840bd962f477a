typedef int T;
void f(int T) { T = 1; T * T; (T) + 1; sizeof (T); }
void g(T T) { T = 1; { T * 2; } }
int h(a) int T; { return T * a; }
int i(a, b) T a, b; { return a; }
int T(void) { return T(); }
int x = T();
int y = sizeof (T);

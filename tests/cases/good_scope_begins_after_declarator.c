typedef int T;
void f(void) { int a = (T) + 1, T, b = (T) + 1; }
void g(void) { int T = sizeof (T); }
void h(void) { T T = (T) - 1; }
void i(void) { int T[sizeof (T)] = { sizeof (T) }; }
void j(void) { enum { T = sizeof (T), U = (T) - 1 }; }
void k(void) { int (*a)(int T, int b[sizeof (T)]), c = sizeof (T), T, d = sizeof (T); }
void l(void) { int T(T), a = sizeof (T); }
void m(void) { struct { int T; int a[sizeof (T)]; } b; }
void n(void) { T a, T, b; a = T * b; }

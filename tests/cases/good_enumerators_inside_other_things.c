typedef int T;
int a[sizeof (enum { A })], b = A;
void f(void) { int c = (enum { T }) 0; T * c; }
void g(void) { if (sizeof (enum { T })) T + 1; T = 2; }
void h(void) { { (enum { T }) 0; T + 1; } (T) + 1; }
int i(enum { T } x, int y[sizeof (T)]) { return T * x; }
int j(int (*z)(enum { T } x), T y) { T w; return w; }
int k(x) enum { T } x; { return T * x; }
struct s { enum { B, C } d; int e[C]; int f : B; };
int l = B + C;
T m;

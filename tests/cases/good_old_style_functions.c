int a(x) int x; { return x; }
int b(x, y) int x; char *y; { return x; }
int c(x, y) int x, *y; { int z; return x; }
d(x) { return x; }
int e(x, y, z) register z; const y; { ; }
int f(x) struct s { int m; } *x; { return x->m; }
int g(x) int (*x)(void); { return (*x)(); }
int h(x) int x[]; { return x[0]; }
int i() int x; { return x; }
int j(void) int x; { return x; }
int k(int x) int y; { return x; }
int l(x) int; { return x; }
int m(x) extern int y; int x = 1; { return x; }
int (*n(x, y))(int) int x; { return 0; }
*o(x) char x; { return 0; }
int p(x) enum { A, B } x; { return A; }
int q(x) int (x), (*y); { }

typedef int T; void f(void) { enum { T } a; T b; }

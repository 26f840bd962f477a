int *a(void) { return 0; }
int (*b(void))(void) { return 0; }
int (*c(int x))[3] { return 0; }
int (d)(void) { return 0; }
int (e(void)) { return 0; }
int *(f)(int x) { return 0; }
int (*g(void)) { return 0; }
int *(*h(int x))(int y) { return 0; }
int (*(*i(void))[3])(void) { return 0; }
int * const j(void) { return 0; }
int k(void)[3] { return 0; }
int l(void)(int) { return 0; }
(m)() { return 0; }
(*n(a)) { return 0; }
(*o(a))(b) { return 0; }
int (((p)))(int x, ...) { return 0; }
struct s q(struct s x) { return x; }
struct s { int y; } r(void) { return x; }
enum e { A } t(void) { return A; }
const char *u(void) { return "u"; }

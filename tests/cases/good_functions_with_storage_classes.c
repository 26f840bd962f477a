static int a(void) { }
extern int b(void) { }
int static c(void) { }
typedef int d(void) { }
register int e(void) { }
auto int f(void) { }
static const int *g(void) { }
long unsigned static h(void) { }

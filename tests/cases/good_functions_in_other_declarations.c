int f(int), g(char), *h(void), (*i)(int, ...), x, *y = 0, z[2] = { 1, 2 };
int (*j)(int) = f, (*k[2])(int) = { f, f };
void l(void) { int m(void), n; int (*o)(void) = m; extern double p(double, ...); n = (*o)() + o(); }
void (*q(int r, void (*s)(int)))(int);
void (*q(int r, void (*s)(int)))(int) { return s; }
int (*(*t(void))(int))[3];

int a(register int x, const int y, int volatile z);
int b(static int x, extern y, auto z, typedef w);
int c(register const *x, volatile register y[]);
int d(const volatile int * const volatile x);
int e(const struct s x, enum t const y, volatile union u *z);
int f(int const, char * const *, register);

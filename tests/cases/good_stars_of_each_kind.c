typedef int T;
int *a, **b, * const *c;
int d = a * *b, e = a ** b, f = *a * *b, g = (T *) a * b, h = (T) * a * b, i = * *a, j = *(T *) a;
int *k(int *, int **, T *x, T (*)[3]);
void l(void) { T *m, * const n; *m = *m * *m; m * n, *m; (*m) * *n; *m *= *n; }
int *(*o)[3], *(*p)(int *);

typedef int T;
void f(void) {
    T;
    T a;
    T * b;
    T (c);
    T (*d);
    T (*e)(T);
    T (f)[3];
    T (g)(T);
    T const h;
    const T i;
    T * const j;
    static T k, *l;
    T *m, **n, o[3], (*p)[3];
    T q = 1, r = (T) 2;
    T s[sizeof (T)];
    a = (T) b * sizeof (T);
}

typedef int T;
void f(void) {
    T (a), b;
    T (c) = 1, (*d) = &c;
    T (e)(g);
    T (h)(T);
    T ((i))[2];
    T (*(*j)(T))[3];
    const T (k);
    register (l), m;
    T (n);
    a = T_(n);
}
void g(void) {
    T (a); { T (b); } a (1);
    a * b;
    a (b)(c);
    a;
}

void f(void) {
    int a;
    char *b = "b", c[3];
    static int d = 1;
    extern int e(void);
    register const f1 = 2;
    struct s { int m; } g, *h;
    enum { A, B } i = A;
    typedef int t;
    t j;
    int k[] = { 1, { 2 }, };
    auto l;
    {
        int a;
        int b;
        { int c; a = b + c; }
        { struct s; struct s *n; }
    }
    if (a) { int c; c = 1; } else { char c; }
    while (a) { int b = a; x(b); }
    switch (a) { int b; char c; default: x(b); }
    { int a; }
    a = 1;
}

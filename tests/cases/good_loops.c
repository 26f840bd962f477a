void f(void) {
    while (a) x();
    while (a) while (b) x();
    while (a = b) ;
    do x(); while (a);
    do do x(); while (a); while (b);
    do while (a) x(); while (b);
    while (a) do x(); while (b);
    for (;;) x();
    for (a;;) x();
    for (;a;) x();
    for (;;a) x();
    for (a;b;) x();
    for (a;;b) x();
    for (;a;b) x();
    for (a;b;c) x();
    for (i = 0, j = 1; i < n && j; i++, --j) x();
    for (;;) for (;;) x();
    for ((a); (b); (c)) x();
    for (-a; !b; *c) x();
    for (;;) { for (;;) { x(); } }
}

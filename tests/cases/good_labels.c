void f(void) {
    l: x();
    m: n: y();
    o : ;
    p: { x(); }
    q: if (a) x();
    r: if (a) x(); else y();
    s: while (a) x();
    t: do x(); while (a);
    u: for (;;) { x(); }
    v: switch (a) { w: ; }
    a1: return;
    b1: goto b1;
    c1: { }
    d1: (x);
    e1: *x = 1;
    f1: x ? y : z;
    if (a) g1: x();
    while (a) h1: { x(); }
    do i1: x(); while (a);
    if (a) x(); else j1: y();
}

void f(void) {
    for (;;) if (a) while (b) switch (c) { case 1: do { if (d) l: for (;;) x(); else { y(); } } while (e); break; default: if (a) b(); else if (c) { d(); } else e(); } else return;
}

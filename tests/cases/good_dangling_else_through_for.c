void f(void) {
    if (a) for (;;) if (c) x(); else y();
    if (a) for (;;) if (c) x(); else y(); else z();
    if (a) for (;;) { if (c) x(); } else y();
    if (a) for (b; c; d) x(); else y();
}

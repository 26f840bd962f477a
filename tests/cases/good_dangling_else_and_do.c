void f(void) {
    if (a) do if (b) x(); while (c); else y();
    if (a) do x(); while (b); else y();
    if (a) do if (b) x(); else y(); while (c);
    if (a) do { if (b) x(); } while (c); else y();
    do if (a) x(); else if (b) y(); while (c);
}

void f(void) {
    if (a) while (b) if (c) x(); else y();
    if (a) while (b) if (c) x(); else y(); else z();
    if (a) { while (b) if (c) x(); } else y();
    if (a) while (b) { if (c) x(); } else y();
    if (a) while (b) x(); else y();
}

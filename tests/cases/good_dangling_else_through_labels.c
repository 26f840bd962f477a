void f(void) {
    if (a) l: if (b) x(); else y();
    if (a) l: if (b) x(); else y(); else z();
    if (a) l: x(); else y();
    if (a) { l: if (b) x(); } else y();
    if (a) case 1: if (b) x(); else y();
    if (a) default: if (b) x(); else y();
    if (a) l: m: case 1: default: if (b) x(); else y();
    if (a) x(); else l: if (b) y(); else z();
}

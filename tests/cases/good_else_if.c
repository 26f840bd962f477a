void f(void) {
    if (a) x(); else if (b) y(); else z();
    if (a) { x(); } else if (b) { y(); } else { z(); }
    if (a) x(); else if (b) y();
    if (a) x(); else { if (b) y(); }
    if (a) x(); else if (b) y(); else if (c) z(); else if (d) w();
    if (a) x(); else if (b) if (c) y(); else z();
    if (a) x(); else if (b) { if (c) y(); } else z();
    if (a) x(); else while (b) if (c) y(); else z();
    if (a) x(); else l: if (b) y();
    if (a) ; else if (b) ; else ;
}

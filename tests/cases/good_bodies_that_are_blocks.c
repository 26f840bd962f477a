void f(void) {
    if (a) { x(); }
    if (a) { x(); } else { y(); }
    if (a) { x(); } else y();
    if (a) x(); else { y(); }
    while (a) { x(); }
    do { x(); } while (a);
    for (;;) { x(); }
    switch (a) { x(); }
    if (a) { } else { }
    while (a) { }
    do { } while (a);
    for (;;) { }
    switch (a) { }
    if (a) {{ x(); }}
    if (a) { int b; x(); }
}

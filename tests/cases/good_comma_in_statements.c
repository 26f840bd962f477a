int f(void) {
    (a, b);
    (a), (b), (c);
    ((a, b), c);
    a, (b, c);
    a = (b, c);
    (a = b), c;
    if ((a, b)) c;
    while ((a, b)) c;
    do c; while ((a, b));
    for ((a, b); (c, d); (e, g)) ;
    switch ((a, b)) { case (a, b): ; }
    x = y[(a, b)];
    g((a, b), c);
    return (a, b);
}

void f(void) {
    if (c) (a, b)[1]; else (a, b)[1];
    do (a, b)[1]; while ((a, b)[1]);
    while (c) (a, b)(1);
    switch (c) case (a, b)[1]: (a, b)[1];
    l: (a, b)[1];
    sizeof (a, b)[1];
    for (;;) (a, b).c;
    return (a, b)[1];
}

void f(void) {
    if (a) { struct s { int m; } x; x.m = 1; } else { enum { A } x; x = A; }
    for (;;) { static int x; extern y; x = y; }
    do { typedef int T; T x; x = (T) 1; } while (b);
    switch (a) { typedef int T; T x; case 1: x = (T) 1; }
    { typedef int T; { T x; } } { int T; T = 1; }
}

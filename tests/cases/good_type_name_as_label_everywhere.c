typedef int T;
void f(void) {
    T x;
    T: x = 1;
    if (x) T: x = 2;
    if (x) ; else T: ;
    while (x) T: T: x = 3;
    do T: x = 4; while (x);
    for (;;) T: { goto T; }
    switch (x) T: case 1: T: default: T: ;
    l: T: m: x = 5;
    { T: x = 6; }
    { T y; T: y = 7; }
    { int T; T: T = 8; goto T; }
    goto T;
}

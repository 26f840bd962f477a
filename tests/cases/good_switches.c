void f(void) {
    switch (a) { case 1: x(); break; case 2: case 3: y(); default: z(); }
    switch (a) case 1: x();
    switch (a) { int b; case 'a': { x(); } case 1 + 2: if (c) y(); case -1: ; }
    switch (a) { default: switch (b) { case A: x(); } }
    switch (a) { case (1): x(); case sizeof (int): y(); case (int) 2: z(); }
    switch ((a)) { case 1: l: x(); }
    switch (a) { case b ? c : d: x(); case b == c: y(); }
    switch (a) { case 1: while (b) { case 2: x(); } }
}

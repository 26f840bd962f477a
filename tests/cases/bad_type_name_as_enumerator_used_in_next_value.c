typedef int T; enum { T = 1, U = sizeof (T *) };

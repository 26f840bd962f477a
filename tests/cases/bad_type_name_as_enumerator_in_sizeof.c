typedef int T; int a[sizeof (enum { T })]; T x;

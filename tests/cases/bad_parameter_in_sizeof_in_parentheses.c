int f(int a[sizeof (int (*)(int (y)))]);

int f(int a[static 3]);

int f(int a[const]);

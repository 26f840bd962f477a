int f(int a[);

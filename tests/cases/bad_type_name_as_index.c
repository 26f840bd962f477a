typedef int T; int x = a[T];

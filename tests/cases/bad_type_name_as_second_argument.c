typedef int T; int x = f(1, T);

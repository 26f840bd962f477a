typedef int T; int x = f(T);

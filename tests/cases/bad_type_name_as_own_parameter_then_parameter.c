typedef int T; int f(T T, T x);

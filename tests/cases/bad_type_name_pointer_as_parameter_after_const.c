typedef int T; int f(const *T);

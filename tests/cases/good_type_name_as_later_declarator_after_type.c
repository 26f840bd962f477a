typedef int T;
int x, T, *y;
int z = T;

int f(int (*g)(int (y)));

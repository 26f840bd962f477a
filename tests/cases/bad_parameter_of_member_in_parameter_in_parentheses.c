int f(struct { int (*g)(int (y)); } p);

int f(int, ..., int);

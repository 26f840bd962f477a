int f(, int);

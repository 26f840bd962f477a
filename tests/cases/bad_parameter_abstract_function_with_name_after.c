int f(int (void) x);

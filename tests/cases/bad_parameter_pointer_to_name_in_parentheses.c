int f(int *(x));

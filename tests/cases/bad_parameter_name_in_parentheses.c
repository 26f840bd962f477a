int f(int (x));

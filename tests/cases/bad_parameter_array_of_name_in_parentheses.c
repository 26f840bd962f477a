int f(int (x)[3]);

int f(int (*(x)));

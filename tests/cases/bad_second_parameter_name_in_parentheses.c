int f(int a, char (x));

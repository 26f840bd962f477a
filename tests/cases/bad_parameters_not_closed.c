int f(int;

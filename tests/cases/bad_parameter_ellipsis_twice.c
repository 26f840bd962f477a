int f(int, ... ...);

int f(int ...);

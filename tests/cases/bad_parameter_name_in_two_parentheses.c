int f(int ((x)));

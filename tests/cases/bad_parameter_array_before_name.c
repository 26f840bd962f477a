int f(int [3] x);

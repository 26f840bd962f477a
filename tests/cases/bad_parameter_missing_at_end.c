int f(int, );

int f(int, ..);

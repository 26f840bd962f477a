int f(int (*)(a));

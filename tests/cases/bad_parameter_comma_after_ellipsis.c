int f(int, ...,);

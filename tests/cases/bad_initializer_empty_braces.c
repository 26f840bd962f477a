int x[] = { };

int x[] = { { } };

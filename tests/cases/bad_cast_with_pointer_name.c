int x = (int *a) b;

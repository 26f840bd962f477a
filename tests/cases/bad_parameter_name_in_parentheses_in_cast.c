int x = (int (*)(int (y))) z;

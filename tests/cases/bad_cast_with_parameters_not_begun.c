int x = (int (*) (;

int x = a : b;

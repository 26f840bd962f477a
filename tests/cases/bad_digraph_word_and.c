int x = a and b;

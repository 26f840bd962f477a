int x = a &&&& b;

int x = a);

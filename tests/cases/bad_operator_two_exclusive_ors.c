int x = a ^^ b;

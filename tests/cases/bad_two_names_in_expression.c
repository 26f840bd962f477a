int x = a b;

int x = (a b);

int x = (a));

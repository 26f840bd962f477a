int x = (a;

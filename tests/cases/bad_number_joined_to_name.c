int x = 3a;

int x = a |||| b;

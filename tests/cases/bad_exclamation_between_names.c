int x = a ! b;

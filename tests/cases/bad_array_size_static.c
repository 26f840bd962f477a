int x[static 3];

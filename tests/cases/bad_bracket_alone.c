int x = a];

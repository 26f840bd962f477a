int x = (a];

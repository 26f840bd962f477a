int x[a = b];

int x[1;

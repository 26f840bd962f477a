int x[3] y;

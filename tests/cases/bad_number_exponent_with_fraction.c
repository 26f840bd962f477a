double x = 1e2.5;

double x = 1e5e5;

double x = 1.0fl;

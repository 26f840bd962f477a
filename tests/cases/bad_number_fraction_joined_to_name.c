double x = .5x;

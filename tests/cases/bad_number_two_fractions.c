double x = .5.5;

double x = 1.0u;

char *x = "é" y;

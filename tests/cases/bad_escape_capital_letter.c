char *x = "\N";

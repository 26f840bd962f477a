char *x = "\\\q";

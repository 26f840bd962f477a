char *x = "abc';

char *x = L "a";

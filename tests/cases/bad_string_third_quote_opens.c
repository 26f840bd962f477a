char *x = "a"";

char *x = "a\u00e9";

char *x = "abc\";

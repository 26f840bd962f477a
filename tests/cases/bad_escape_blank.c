char *x = "a\ b";

char *x = "\e[0m";

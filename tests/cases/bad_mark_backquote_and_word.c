char *x = `a`;

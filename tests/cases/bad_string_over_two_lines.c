char *x = "abc
def";

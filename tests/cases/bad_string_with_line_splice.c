char *x = "abc\
def";

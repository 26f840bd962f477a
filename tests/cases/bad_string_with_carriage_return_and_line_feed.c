char *x = "abc
;

char *x = u8"a";

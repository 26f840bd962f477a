int x;
char *y = "abc;
int z;

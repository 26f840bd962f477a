# 1 "a.c"
int x;
#line 7

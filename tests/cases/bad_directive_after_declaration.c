int x; # 1 "a.c"

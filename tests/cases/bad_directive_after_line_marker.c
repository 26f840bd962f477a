# 1 "a.c"
#undef A

int x;
#line 7
#1
#	2 "b.c" 1 3
# line 4
#line
 #line 5 "c.c"
  	# 6
#line"d.c"
#7x
#8.5e+"
int
# 9
x
#line 10 /* open
=
# 11 'a \q @ `
1
# 12 // *
;
void f(void) {
# 13 "e.c"
    x
# 14
    = 2;
}
/*
# 15
#define in a comment
*/
# 16

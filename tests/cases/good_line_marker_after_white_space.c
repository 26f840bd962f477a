 	# 	 1 "a.c"
int x;

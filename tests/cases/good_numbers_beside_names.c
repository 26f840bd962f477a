int a = 1 .b;
int c = 0x1 .e, f = 1 .e1, g = 0 [x], h = 1 ?.5:1.;
int i = 1+1, j = 1-1, k = 1 -1, l = 0x1+1, m = 1e1+1, n = 0xe +1, o = 1.-.5;
int p = x ?-1:+1;

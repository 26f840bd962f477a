int f(struct { int (x); } p, int a[sizeof (struct { char (y); })]);

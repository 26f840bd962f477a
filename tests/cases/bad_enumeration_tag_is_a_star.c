enum *x;

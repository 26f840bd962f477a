x *y;

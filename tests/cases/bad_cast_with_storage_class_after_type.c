int x = (int static) y;

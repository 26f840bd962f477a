int x = (T) y;

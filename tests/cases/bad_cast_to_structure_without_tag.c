int x = (struct) y;

int x = (register int) y;

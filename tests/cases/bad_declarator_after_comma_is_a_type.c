int x, int y;

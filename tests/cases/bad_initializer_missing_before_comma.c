int x = , y;

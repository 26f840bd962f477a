int x = (int, char) y;

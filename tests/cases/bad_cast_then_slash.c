int x = (int) / 2;

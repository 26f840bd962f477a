int x = (int : 3) y;

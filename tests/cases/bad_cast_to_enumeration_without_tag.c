int x = (enum) y;

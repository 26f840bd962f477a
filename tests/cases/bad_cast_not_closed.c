int x = (int;

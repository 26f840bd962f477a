int x = == 1;

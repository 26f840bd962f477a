int x = = 1;

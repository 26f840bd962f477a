int x = a => b;

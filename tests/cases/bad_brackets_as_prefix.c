int x = [1];

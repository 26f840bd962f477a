int x = a[];

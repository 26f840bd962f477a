int x = ++;

int x = sizeof (int) ++;

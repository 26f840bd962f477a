int x = sizeof (int)(y);

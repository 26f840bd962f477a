int x = sizeof (int x);

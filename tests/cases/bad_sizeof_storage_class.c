int x = sizeof (static int);

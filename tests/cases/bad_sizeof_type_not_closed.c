int x = sizeof (int;

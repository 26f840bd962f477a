sizeof (int);

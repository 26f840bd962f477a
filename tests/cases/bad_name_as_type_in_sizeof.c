int x = sizeof (T y);

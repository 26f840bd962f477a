int a = sizeof (int) - 1;

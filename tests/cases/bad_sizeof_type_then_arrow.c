int x = sizeof (int)->a;

typedef int T; int x = sizeof (T T);

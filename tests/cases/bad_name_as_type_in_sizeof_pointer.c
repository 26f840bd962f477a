int x = sizeof (T *);

int x = (T *) y;

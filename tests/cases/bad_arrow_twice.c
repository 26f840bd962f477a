int x = a->->b;

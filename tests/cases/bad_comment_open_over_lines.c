int x;
    int y; /* one
two * /
three

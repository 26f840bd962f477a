int x = a // comment
    + b;

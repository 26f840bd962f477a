int x; /* a */ /* b

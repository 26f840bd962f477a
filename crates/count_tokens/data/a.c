int x = 0x1F + y; /* z */

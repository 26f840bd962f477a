int x; /* é */ é

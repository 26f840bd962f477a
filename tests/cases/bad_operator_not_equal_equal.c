int x = a !== b;

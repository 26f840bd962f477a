int x;

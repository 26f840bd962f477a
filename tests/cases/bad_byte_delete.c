int x;


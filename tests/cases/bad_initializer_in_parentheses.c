int x(1);

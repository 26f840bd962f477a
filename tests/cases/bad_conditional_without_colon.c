int x = a ? b;

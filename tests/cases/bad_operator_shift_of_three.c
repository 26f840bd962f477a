int x = a >>> b;

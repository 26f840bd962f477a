int x = a->(b);

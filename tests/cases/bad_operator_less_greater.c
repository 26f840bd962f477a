int x = a <> b;

int x = a ~ b;

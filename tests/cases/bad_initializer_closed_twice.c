int x = { 1 } };

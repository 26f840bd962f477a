int x[int];

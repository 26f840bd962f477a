int x[*];

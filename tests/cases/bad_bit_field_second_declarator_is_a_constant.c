struct s { int a : 1, 2; };

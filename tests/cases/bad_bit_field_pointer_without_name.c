struct s { int *: 3; };

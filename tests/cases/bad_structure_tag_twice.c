struct s s { int a; };

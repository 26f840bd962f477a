struct s { T a; };

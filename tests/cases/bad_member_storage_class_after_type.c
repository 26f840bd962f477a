struct s { int typedef a; };

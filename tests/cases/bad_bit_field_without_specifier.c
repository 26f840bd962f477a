struct s { : 3; };

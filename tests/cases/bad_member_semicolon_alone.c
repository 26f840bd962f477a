struct s { ; };

int struct s x;

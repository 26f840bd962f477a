const int struct s x;

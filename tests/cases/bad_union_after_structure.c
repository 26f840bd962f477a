struct s union u x;

int f(struct s int x);

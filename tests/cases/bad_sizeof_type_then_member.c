int x = sizeof (struct s).a;

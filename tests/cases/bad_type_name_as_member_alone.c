typedef int T; struct s { T; };

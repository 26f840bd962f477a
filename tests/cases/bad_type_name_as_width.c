typedef int T; struct s { int a : T; };

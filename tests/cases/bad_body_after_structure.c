struct s { int a; } { }

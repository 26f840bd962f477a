struct s { int a; } typedef int t;

typedef int T; struct s { const *T; };

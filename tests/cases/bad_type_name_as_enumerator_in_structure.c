typedef int T; struct s { enum { T } a; T b; };

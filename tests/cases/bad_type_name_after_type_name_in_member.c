typedef int T, U; struct s { T U x; };

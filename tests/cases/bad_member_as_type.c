struct s { int T; }; T x;

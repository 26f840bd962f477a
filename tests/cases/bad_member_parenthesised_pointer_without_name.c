struct s { int (*)(void); };

struct s { int a;; };

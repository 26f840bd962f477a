int x const;

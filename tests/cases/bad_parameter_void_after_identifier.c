int f(a, void);

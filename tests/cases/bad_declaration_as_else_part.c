void f(void) { if (a) ; else struct s x; }

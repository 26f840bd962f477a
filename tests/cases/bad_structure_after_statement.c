void f(void) { x(); struct s { int a; }; }

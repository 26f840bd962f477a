void f(void) { x(); enum e { A }; }

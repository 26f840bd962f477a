void f(void) { x(), ; }

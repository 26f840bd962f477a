void f(void) { ) }

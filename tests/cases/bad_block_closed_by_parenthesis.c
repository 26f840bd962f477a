void f(void) { x(); )

int (*f)(void) { }

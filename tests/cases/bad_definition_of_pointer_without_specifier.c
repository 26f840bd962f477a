(*f)(void) { }

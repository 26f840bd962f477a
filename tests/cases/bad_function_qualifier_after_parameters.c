int f(void) const { }

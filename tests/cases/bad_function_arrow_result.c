int f(void) -> int { }

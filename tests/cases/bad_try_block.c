void f(void) { try { } }

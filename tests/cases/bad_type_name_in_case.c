typedef int T; void f(void) { case T: ; }

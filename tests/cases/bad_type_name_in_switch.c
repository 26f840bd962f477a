typedef int T; void f(void) { switch (T) ; }

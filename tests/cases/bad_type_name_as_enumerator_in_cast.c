typedef int T; void f(void) { int a = (enum { T }) 1, b = (T) 1; }

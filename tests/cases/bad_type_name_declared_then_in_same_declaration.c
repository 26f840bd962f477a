typedef int T; void f(void) { int T, x = sizeof (T *); }

typedef int T; void f(void T()) { T *x, y; { T z; } }

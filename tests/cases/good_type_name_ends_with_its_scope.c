void f(void) { typedef int T; T x; }
int T;
void g(void) { { typedef int T; T x; } T = 1; { T * 2; } }
int h(int (*x)(int y)) { typedef int y; y z; { int y; y = 1; } { y w; w = (y) z; } return (y) z; }

typedef int T;
f(a, b) T a, *b; { return a; }
g(T) { return 0; }
h(T a, T *b) { return *b; }
*i(a) register T *a; { return a; }
static j(T (*a)(T)) { return (*a)(1); }

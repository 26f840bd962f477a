typedef int T;
T typedef U;
U x;
void f(void) { typedef T T; T y; { typedef T *T; T z; *z = (T) y; } }
void g(void) { typedef U T, *V; V w; T T; w = &T; }
const T typedef *W;
W v;

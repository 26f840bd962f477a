typedef int T;
void f(void) {
    T a;
    { int T; T = 1; { T * a; } }
    { T b; { T T; T = 2; } b = (T) 1; }
    { enum { T }; a = T; (T) + 1; }
    { int T(void); a = T(); }
    { int T[3]; a = T[1]; }
    { struct T { int T; } b; b.T = (T) 2; }
    { typedef char T; T c; (T) + 1; }
    { typedef char *T; { int T; T = 1; } { T d; d = (T) 0; } }
    { extern T T; T(a); }
    { static int T; T++; }
    a = (T) 1;
    { T e; T (*g)(T); T: e = g(e); }
}
T x;

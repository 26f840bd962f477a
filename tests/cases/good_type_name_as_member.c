typedef int T;
struct s { int T; T x; T T; };
struct t { T T, y; T *z; };
union u { T T : 3; T : 4; T a : 5; };
int f(struct s *p, struct s q) { return p->T + q.T + (*p).T; }
T v;
struct w { const T x; T const y; const T : 1; };

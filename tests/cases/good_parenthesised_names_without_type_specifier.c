const (x) = 1;
static (f)(void) { return 1; }
static (*g)(void);
struct s { const (x); volatile (*y), (z[3]); };
extern ((a)), *(b);
typedef (T);
T c;
register (d)[3];

int a[(b ? c : d)];
int e[(b = c)];
int f[(b, c)];
int g[(b || c)];
enum h { I = (b ? c : d), J = (b = c), K = (b, c), L = (b) };
struct m { int n : (b ? c : d); int o : (b = c); int p : (b, c); int q : (b); };
void r(void) { switch (s) { case (b ? c : d): case (b = c): case (b, c): case (b): ; } }

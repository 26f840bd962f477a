struct a;
struct b { struct a *p; struct c *q; enum d *r; };
struct a { struct b m[2]; };
union e; enum f;
union e *g(enum f, struct h *);
void i(void) { struct a; struct a *p; struct a { int x; } y; p = &y; { union e; union e { int z; } w; } }
struct c { struct c *next; } *j = 0, k;

typedef struct T T;
struct T { T *next; };
typedef enum U { A } U;
enum U a = A;
U b;
union T { T *c; } d;
T *f(struct T *x, T *y) { struct T z; return (struct T *) (T *) x; }

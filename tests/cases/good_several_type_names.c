typedef int T, *P, A[3], F(void);
typedef struct { int m; } S;
typedef T U;
P a; A b; F c, *d; S e; U f;
T g(P, A, F *, S, U);
int h = sizeof (A) + sizeof (S) * (T) + 1;
void i(T U) { P T; U = T[1]; { A P; P[1] = (F *) 0; } }
int j = (F *) (P) & (T) * a;

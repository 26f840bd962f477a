int _, __, _a, a_, A, aA, a1, _1, a_1_b;
int Int, INT, iff, if_, _if, whiles, autos, voids, sizeofs, L, l, u, U, e, E, x, X, f;
int asm, inline, bool, class, new, this, template, restrict, _Bool, typeof, and, or, not, line, define, NULL;
int L1 = L + l, L2 = L[1], L3 = L(1), u8 = e1, e1 = E+1, e2 = e-1;

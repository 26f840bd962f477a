typedef int T;
T (*p)[3], *q(void);

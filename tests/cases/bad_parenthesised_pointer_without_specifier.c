(*x)(void);

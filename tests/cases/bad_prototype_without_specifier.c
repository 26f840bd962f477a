f(void);

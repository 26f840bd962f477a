int f(struct *p);

int (*);

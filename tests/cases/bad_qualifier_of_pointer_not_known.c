int * restrict p;

int 1;

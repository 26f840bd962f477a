int * 1;

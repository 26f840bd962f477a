int * static x;

int * char x;

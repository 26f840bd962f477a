int x = 1;
int y = ;
int z = ;

int x]
int y = ;

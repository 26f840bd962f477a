#1
int x;

// comment
int x;

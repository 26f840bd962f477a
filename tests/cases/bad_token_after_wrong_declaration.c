x y z;
int a = 08;

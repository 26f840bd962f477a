typedef int T;
T T;
int a = T * T;

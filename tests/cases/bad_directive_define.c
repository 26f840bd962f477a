int x;
  #define A 1
int y = A;

int x =
  a !
  b;

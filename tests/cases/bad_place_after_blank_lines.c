

  int x =

    ;

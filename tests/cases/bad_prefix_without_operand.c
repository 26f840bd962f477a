int x = + ;

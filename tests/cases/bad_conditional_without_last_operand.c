int x = a ? b : ;

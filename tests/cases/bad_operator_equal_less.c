int x = a =< b;

typedef T T;

int x = a =+= b;

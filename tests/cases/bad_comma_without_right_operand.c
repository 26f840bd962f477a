int x = (a, );

int x = (int).a;

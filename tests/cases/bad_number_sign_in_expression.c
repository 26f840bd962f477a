int x = a # b;

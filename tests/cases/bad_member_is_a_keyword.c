int x = a.int;

int x = ++(int) a;

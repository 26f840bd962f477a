int x = a ? : b;

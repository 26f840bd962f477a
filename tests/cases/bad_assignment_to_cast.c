int z = (int) a = b;

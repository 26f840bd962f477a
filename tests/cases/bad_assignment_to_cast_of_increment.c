int z = (int) a++ += d;

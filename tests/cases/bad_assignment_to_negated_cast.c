int z = a % -b %= d;

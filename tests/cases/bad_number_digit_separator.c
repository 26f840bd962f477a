int x = 1_000;

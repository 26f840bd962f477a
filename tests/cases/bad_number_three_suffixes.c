int x = 1ulu;

int x = 0b101;

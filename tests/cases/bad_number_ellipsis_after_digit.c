int x = 1...;

int x = a};

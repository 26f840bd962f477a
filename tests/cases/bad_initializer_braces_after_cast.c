int x = (int) { 1 };

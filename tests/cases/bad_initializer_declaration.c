int x = { int y };

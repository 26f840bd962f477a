int x = .b;

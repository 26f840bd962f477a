int x char y; { }
